/* The calls of the library by their names in the gem: arguments that are as usual are read here, and all else is left
 * to the methods in Ruby. */
#include "module.h"

static VALUE named;
static ID checked, refused;

/* A call with its arguments, and what it returns. */
struct made {
    const struct call *call;
    struct arguments arguments;
    /* frozen copies of the Strings that a long call reads */
    VALUE table;
    VALUE first;
    VALUE second;
    VALUE third;
    int64_t number;
};

/* Reads a number below an end. */
static bool read_number(VALUE value, uint64_t end, uint64_t *number)
{
    if (!FIXNUM_P(value) || FIX2LONG(value) < 0) {
        return false;
    }
    *number = (uint64_t)FIX2LONG(value);
    return *number < end;
}

/* Reads a schema, which is a number or the name of a record. */
static bool read_schema(VALUE value, uint32_t *schema)
{
    uint64_t number = 0;
    if (RB_TYPE_P(value, T_STRING) && rb_obj_class(value) == rb_cString) {
        value = rb_hash_lookup2(native.schemas, value, Qnil);
    }
    bool is_read = read_number(value, UINT64_C(1) << 32, &number);
    *schema = (uint32_t)number;
    return is_read;
}

/* Reads the bytes of a String. */
static bool read_slice(VALUE value, struct slice *slice, VALUE *kept)
{
    if (!RB_TYPE_P(value, T_STRING)) {
        return false;
    }
    *kept = value;
    slice->bytes = (const uint8_t *)RSTRING_PTR(value);
    slice->length = (size_t)RSTRING_LEN(value);
    return true;
}

/* Reads the numbers of a struct, which are the bytes of it. */
static bool read_numbers(VALUE value, size_t count, uint64_t *numbers)
{
    size_t size = count * sizeof *numbers;
    if (!RB_TYPE_P(value, T_STRING) || (size_t)RSTRING_LEN(value) != size) {
        return false;
    }
    memcpy(numbers, RSTRING_PTR(value), size);
    return true;
}

/* Reads a table of numbers, which are the bytes of it, in their alignment. */
static bool read_table(VALUE value, struct slice *slice, VALUE *kept)
{
    return read_slice(value, slice, kept) && (uintptr_t)slice->bytes % sizeof(uint64_t) == 0;
}

static bool read_argument(struct made *made, enum parameter parameter, VALUE value)
{
    struct arguments *arguments = &made->arguments;
    uint64_t number = 0;
    bool is_read = true;
    switch (parameter) {
    case VERSION:
        is_read = read_number(value, UINT64_C(1) << 32, &number);
        arguments->version = (uint32_t)number;
        return is_read;
    case CODE:
        is_read = read_number(value, UINT64_C(1) << 16, &number);
        arguments->code = (uint16_t)number;
        return is_read;
    case SCHEMA:
        return read_schema(value, &arguments->schema);
    case PAYLOAD_LENGTH:
        is_read = read_number(value, UINT64_C(1) << 32, &number);
        arguments->payload_length = (uint32_t)number;
        return is_read;
    case INDEX:
        is_read = read_number(value, UINT64_C(1) << 32, &number);
        arguments->index = (uint32_t)number;
        return is_read;
    case DIRECTION:
        is_read = read_number(value, UINT64_C(1) << 32, &number);
        arguments->direction = (uint32_t)number;
        return is_read;
    case TABLE:
        return read_table(value, &arguments->table, &made->table);
    case NAME:
    case JSON:
    case PAYLOAD:
    case FIRST:
    case RECORDED:
    case SET:
        return read_slice(value, &arguments->first, &made->first);
    case SECOND:
    case REPLAYED:
    case RENAMES:
        return read_slice(value, &arguments->second, &made->second);
    case STREAM:
        return read_slice(value, &arguments->third, &made->third);
    case IGNORE_PAYLOADS:
        arguments->ignore_payloads = RTEST(value);
        return true;
    case REPLAY:
        return read_numbers(value, made->call->given, arguments->given);
    case NO_PARAMETER:
        break;
    }
    return false;
}

/* How many arguments a call takes. */
static int taken(const struct call *call)
{
    int count = 0;
    while (call->parameters[count] != NO_PARAMETER) {
        count += 1;
    }
    return count;
}

/* Reads the values that a call is given, which are as many as it takes. */
static bool read_arguments(struct made *made, const VALUE *values)
{
    for (int at = 0; made->call->parameters[at] != NO_PARAMETER; at += 1) {
        if (!read_argument(made, made->call->parameters[at], values[at])) {
            return false;
        }
    }
    return true;
}

static void *make(void *given)
{
    struct made *made = given;
    made->number = made->call->make(&native.library, &made->arguments);
    return NULL;
}

/* Takes a frozen copy of a String, which shares its bytes, in place of it. */
static void keep(VALUE *kept, struct slice *slice)
{
    if (*kept != Qfalse) {
        *kept = rb_str_new_frozen(*kept);
        slice->bytes = (const uint8_t *)RSTRING_PTR(*kept);
    }
}

/* Makes the call; one that reads much while other threads run, which may change the Strings that were given. */
static void make_call(struct made *made, size_t size)
{
    if (size < LONG) {
        make(made);
        return;
    }
    keep(&made->table, &made->arguments.table);
    keep(&made->first, &made->arguments.first);
    keep(&made->second, &made->arguments.second);
    keep(&made->third, &made->arguments.third);
    made->number = JOURNAL_OUT_OF_MEMORY;
    rb_thread_call_without_gvl(make, made, NULL, NULL);
}

/* The bytes that a call writes, or nil if it returned an error. */
static VALUE written(struct made *made)
{
    size_t unit = made->call->unit;
    size_t size = bytes_read(made->call, &made->arguments);
    size_t room = made->call->times * size + made->call->more;
    if (room <= BYTES / unit) {
        _Alignas(uint64_t) uint8_t out[BYTES];
        made->arguments.out = out;
        made->arguments.room = BYTES / unit;
        make_call(made, size);
        if (made->number <= (int64_t)(BYTES / unit)) {
            return made->number < 0 ? Qnil : rb_str_new((const char *)out, made->number * (long)unit);
        }
        room = (size_t)made->number;
    }
    for (;;) {
        VALUE found = rb_str_buf_new((long)(room * unit));
        made->arguments.out = (uint8_t *)RSTRING_PTR(found);
        made->arguments.room = room;
        make_call(made, size);
        if (made->number < 0) {
            return Qnil;
        }
        if ((size_t)made->number <= room) {
            rb_str_set_len(found, made->number * (long)unit);
            return found;
        }
        RB_GC_GUARD(found);
        room = (size_t)made->number;
    }
}

/* The number that a call returns, or nil if that is an error. */
static VALUE number_of(struct made *made)
{
    make_call(made, bytes_read(made->call, &made->arguments));
    return made->number < 0 ? Qnil : LL2NUM(made->number);
}

/* What a call returns: a number or the bytes that it writes, or an array of that, of its numbers, and of those that it
 * changed; nil if that is an error. */
static VALUE returned(struct made *made)
{
    const struct call *call = made->call;
    VALUE result = call->unit > 0 ? written(made) : number_of(made);
    if (NIL_P(result) || call->numbers == 0) {
        return result;
    }
    VALUE found = rb_ary_new_capa(2 + (long)call->numbers);
    rb_ary_push(found, result);
    for (size_t at = 0; at < call->numbers; at += 1) {
        rb_ary_push(found, ULL2NUM(made->arguments.numbers[at]));
    }
    if (call->changes) {
        const uint64_t *given = made->arguments.given;
        rb_ary_push(found, rb_str_new((const char *)given, (long)(call->given * sizeof *given)));
    }
    return found;
}

/* The call at a place of the list, with its name in the gem and its arguments. */
static VALUE call(int count, VALUE *values, VALUE self)
{
    (void)self;
    rb_check_arity(count, 2, UNLIMITED_ARGUMENTS);
    long place = NUM2LONG(values[0]);
    if (place < 0 || place >= (long)(sizeof CALLS / sizeof *CALLS)) {
        rb_raise(rb_eIndexError, "there is no such call");
    }
    struct made made = {.call = &CALLS[place], .table = Qfalse, .first = Qfalse, .second = Qfalse, .third = Qfalse};
    rb_check_arity(count - 2, taken(made.call), taken(made.call));
    be_there();
    if (!read_arguments(&made, values + 2)) {
        VALUE given = rb_ary_new_from_values(count - 2, values + 2);
        VALUE plain = rb_funcall(named, checked, 3, values[0], values[1], given);
        Check_Type(plain, T_ARRAY);
        if (RARRAY_LEN(plain) != count - 2 || !read_arguments(&made, RARRAY_CONST_PTR(plain))) {
            rb_raise(rb_eTypeError, "arguments that this module does not take");
        }
        RB_GC_GUARD(plain);
    }
    VALUE found = returned(&made);
    if (NIL_P(found)) {
        VALUE given = rb_ary_new_from_values(count - 2, values + 2);
        rb_funcall(named, refused, 4, values[0], values[1], given, LL2NUM(made.number));
    }
    RB_GC_GUARD(made.table);
    RB_GC_GUARD(made.first);
    RB_GC_GUARD(made.second);
    RB_GC_GUARD(made.third);
    return found;
}

void define_calls(VALUE pendratsoa)
{
    named = rb_const_get(pendratsoa, rb_intern("Named"));
    rb_gc_register_mark_object(named);
    checked = rb_intern("checked");
    refused = rb_intern("refused");
    rb_define_singleton_method(named, "call", call, -1);
}
