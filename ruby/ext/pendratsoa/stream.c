/* What came of a stream, from which items are taken: each is made here, from the numbers that the library writes. */
#include "module.h"

/* How much room is kept where nothing is left. */
#define KEPT 65536

/* How many bytes a header has. */
#define HEADER_BYTES 8

/* The bytes received, from the first that is in no item on, and what is known of the next item. */
struct pending {
    uint8_t *bytes;
    size_t begin;
    size_t end;
    size_t room;
    uint32_t version;
    uint32_t limit;
    bool is_limited;
    uint64_t needed; /* how many bytes the next item needs at least; 0 if this is not known */
    uint64_t offset; /* how many bytes items have taken */
};

static ID word_variable, offset_variable;

static void free_pending(void *given)
{
    struct pending *self = given;
    xfree(self->bytes);
    xfree(self);
}

static size_t size_of_pending(const void *given)
{
    const struct pending *self = given;
    return sizeof *self + self->room;
}

static const rb_data_type_t pending_type = {
    .wrap_struct_name = "pendratsoa/pending",
    .function = {.dfree = free_pending, .dsize = size_of_pending},
    .flags = RUBY_TYPED_FREE_IMMEDIATELY,
};

static struct pending *pending_of(VALUE self)
{
    struct pending *pending;
    TypedData_Get_Struct(self, struct pending, &pending_type, pending);
    return pending;
}

static VALUE allocate(VALUE class)
{
    struct pending *pending;
    return TypedData_Make_Struct(class, struct pending, &pending_type, pending);
}

/* The number of pending bytes. */
static size_t left(const struct pending *self)
{
    return self->end - self->begin;
}

static VALUE initialize(VALUE self, VALUE version, VALUE limit)
{
    struct pending *pending = pending_of(self);
    be_there();
    pending->version = NUM2UINT(version);
    pending->is_limited = !NIL_P(limit);
    pending->limit = NIL_P(limit) ? 0 : NUM2UINT(limit);
    return self;
}

/* A copy goes on by itself. */
static VALUE initialize_copy(VALUE self, VALUE original)
{
    struct pending *pending = pending_of(self);
    const struct pending *other = pending_of(original);
    if (pending == other) {
        return self;
    }
    uint8_t *bytes = other->room == 0 ? NULL : xmalloc(other->room);
    if (left(other) > 0) {
        memcpy(bytes + other->begin, other->bytes + other->begin, left(other));
    }
    xfree(pending->bytes);
    *pending = *other;
    pending->bytes = bytes;
    return self;
}

/* Appends the bytes of a String. */
static VALUE feed(VALUE self, VALUE data)
{
    struct pending *pending = pending_of(self);
    Check_Type(data, T_STRING);
    size_t length = (size_t)RSTRING_LEN(data);
    if (length == 0) {
        return self;
    }
    if (length > pending->room - pending->end) {
        size_t size = left(pending);
        /* used bytes are dropped, and there is room for as much again */
        size_t room = size > SIZE_MAX / 2 - length ? SIZE_MAX : 2 * (size + length);
        if (room > pending->room || size + length > pending->room / 2) {
            uint8_t *bytes = xmalloc(room);
            if (size > 0) {
                memcpy(bytes, pending->bytes + pending->begin, size);
            }
            xfree(pending->bytes);
            pending->bytes = bytes;
            pending->room = room;
        } else if (size > 0) {
            memmove(pending->bytes, pending->bytes + pending->begin, size);
        }
        pending->begin = 0;
        pending->end = size;
    }
    memcpy(pending->bytes + pending->end, RSTRING_PTR(data), length);
    pending->end += length;
    return self;
}

/* Looks for an item: how many bytes are missing at least, 0 if it is whole, or an error. */
static int64_t look(struct pending *self, struct journal_item *item)
{
    size_t length = left(self);
    if (length < self->needed) {
        return (int64_t)(self->needed - length);
    }
    const uint8_t *bytes = length == 0 ? NULL : self->bytes + self->begin;
    const struct library *library = &native.library;
    int64_t missing = self->is_limited
                          ? library->next_within(self->version, self->limit, bytes, length, item, JOURNAL_ITEM_NUMBERS)
                          : library->next(self->version, bytes, length, item, JOURNAL_ITEM_NUMBERS);
    self->needed = missing > 0 ? length + (uint64_t)missing : 0;
    return missing;
}

/* The word that follows from the members of a message, as `word` of it has it. */
static uint64_t word_of_members(const struct journal_item *item)
{
    uint64_t flag = item->requested_ack == 1 ? UINT64_C(1) << 47 : 0;
    return item->code << 48 | flag | (item->size - item->payload);
}

/* Makes an instance of a Struct of these members, frozen. A variable of a Struct is looked up in a table of all
 * objects, so a message has its word only where it does not follow from its members. */
static VALUE item_of(const struct pending *self, const struct journal_item *item)
{
    bool is_message = item->kind == JOURNAL_ITEM_MESSAGE;
    VALUE made = rb_obj_alloc(native.items[item->kind]);
    rb_struct_aset(made, INT2FIX(0), UINT2NUM(self->version));
    rb_struct_aset(made, INT2FIX(1), ULL2NUM(item->code));
    if (!is_message) {
        rb_struct_aset(made, INT2FIX(2), ULL2NUM(item->word));
    }
    if (item->kind != JOURNAL_ITEM_UNKNOWN_CODE) {
        /* a copy; a part of what came could keep all of it in memory */
        VALUE payload = rb_str_new((const char *)self->bytes + self->begin + item->payload,
                                   (long)(item->size - item->payload));
        rb_struct_aset(made, INT2FIX(is_message ? 2 : 3), rb_obj_freeze(payload));
    }
    if (is_message) {
        rb_struct_aset(made, INT2FIX(3), item->requested_ack == 1 ? Qtrue : Qfalse);
        if (item->word != word_of_members(item)) {
            rb_ivar_set(made, word_variable, ULL2NUM(item->word));
        }
    }
    rb_ivar_set(made, offset_variable, ULL2NUM(self->offset));
    return rb_obj_freeze(made);
}

/* The next item, or nil if not all of it came; or a number: an error of the library, or a kind of items that is not
 * known. */
static VALUE take(VALUE self)
{
    struct pending *pending = pending_of(self);
    struct journal_item item;
    int64_t missing = look(pending, &item);
    if (missing != 0) {
        return missing < 0 ? LL2NUM(missing) : Qnil;
    }
    if (item.kind >= ITEM_CLASSES) {
        return ULL2NUM(item.kind);
    }
    if (item.payload > item.size || item.size > left(pending)) {
        rb_raise(rb_eRuntimeError, "an item that is not in the bytes");
    }
    VALUE made = item_of(pending, &item);
    pending->begin += item.size;
    pending->offset += item.size;
    if (left(pending) == 0) {
        pending->begin = pending->end = 0;
        if (pending->room > KEPT) {
            xfree(pending->bytes);
            pending->bytes = NULL;
            pending->room = 0;
        }
    }
    return made;
}

/* The number of pending bytes: those received that no item has yet. */
static VALUE rest(VALUE self)
{
    return SIZET2NUM(left(pending_of(self)));
}

/* A new String of so many pending bytes. */
static VALUE string_of(const struct pending *self, size_t length)
{
    return length == 0 ? rb_str_new(NULL, 0) : rb_str_new((const char *)self->bytes + self->begin, (long)length);
}

/* The pending bytes. */
static VALUE trailing(VALUE self)
{
    const struct pending *pending = pending_of(self);
    return string_of(pending, left(pending));
}

/* The number of bytes that items have taken. */
static VALUE offset(VALUE self)
{
    return ULL2NUM(pending_of(self)->offset);
}

/* The first eight bytes of what is in no item yet, or fewer if fewer came. */
static VALUE head(VALUE self)
{
    const struct pending *pending = pending_of(self);
    size_t came = left(pending);
    return string_of(pending, came < HEADER_BYTES ? came : HEADER_BYTES);
}

void define_stream(VALUE pendratsoa)
{
    VALUE pending = rb_define_class_under(rb_const_get(pendratsoa, rb_intern("Compiled")), "Pending", rb_cObject);
    word_variable = rb_intern("@word");
    offset_variable = rb_intern("@offset");
    rb_define_alloc_func(pending, allocate);
    rb_define_method(pending, "initialize", initialize, 2);
    rb_define_method(pending, "initialize_copy", initialize_copy, 1);
    rb_define_method(pending, "feed", feed, 1);
    rb_define_method(pending, "take", take, 0);
    rb_define_method(pending, "rest", rest, 0);
    rb_define_method(pending, "trailing", trailing, 0);
    rb_define_method(pending, "offset", offset, 0);
    rb_define_method(pending, "head", head, 0);
}
