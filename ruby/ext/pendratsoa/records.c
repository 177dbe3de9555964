/* Records, read from the table of fields, and written as structs or as such a table. */
#include "module.h"

/* The methods in Ruby. */
static ID decode_in_ruby, encode_in_ruby, frame_in_ruby;

/*
 * Reading.
 */

/* The entries of a payload, and which of them comes next. */
struct reading {
    const struct journal_field *entries;
    int64_t count;
    int64_t at;
    VALUE bytes;
};

static VALUE read_record(struct reading *reading, const struct record *record, uint64_t level);

/* The bytes of an entry, as a frozen string of an encoding. */
static VALUE string_of(VALUE bytes, const struct journal_field *entry, int encoding)
{
    if (!is_within(entry, (uint64_t)RSTRING_LEN(bytes))) {
        return Qundef;
    }
    long length = (long)entry->length;
    VALUE found = length < SHARED ? rb_str_new(RSTRING_PTR(bytes) + entry->offset, length)
                                  : rb_str_subseq(bytes, (long)entry->offset, length);
    rb_enc_associate_index(found, encoding);
    return rb_obj_freeze(found);
}

/* The value of the entry of the field at a place. */
static VALUE read_value(struct reading *reading, const struct record *record, long place,
                        const struct journal_field *entry)
{
    const struct row *row = &record->rows[place];
    switch (record->fields[place].kind) {
    case JOURNAL_FIELD_STRING:
        return string_of(reading->bytes, entry, utf8);
    case JOURNAL_FIELD_BYTES:
        return string_of(reading->bytes, entry, binary);
    case JOURNAL_FIELD_MESSAGE:
        return read_record(reading, &native.records[row->schema], entry->level + 1);
    case JOURNAL_FIELD_BOOL:
        return entry->value != 0 ? Qtrue : Qfalse;
    case JOURNAL_FIELD_ENUM: {
        VALUE number = LL2NUM((int64_t)entry->value);
        return rb_hash_lookup2(row->names, number, number);
    }
    default:
        return ULL2NUM(entry->value);
    }
}

/* Puts a value into those of a record, of a repeated field into its list. */
static void put(VALUE values, const struct record *record, long place, VALUE value)
{
    const struct row *row = &record->rows[place];
    if (record->fields[place].shape != REPEATED) {
        RARRAY_ASET(values, row->slot,
                    row->is_wrapped ? rb_class_new_instance(1, &value, row->member_class) : value);
        return;
    }
    VALUE list = RARRAY_AREF(values, row->slot);
    if (OBJ_FROZEN(list)) {
        /* that which is there by default */
        list = rb_ary_new();
        RARRAY_ASET(values, row->slot, list);
    }
    rb_ary_push(list, value);
}

/* The record of the entries of a level, from the next one on; Qundef where it is left to Ruby. */
static VALUE read_record(struct reading *reading, const struct record *record, uint64_t level)
{
    VALUE values = rb_ary_new_from_values(RARRAY_LEN(record->defaults), RARRAY_CONST_PTR(record->defaults));
    long place = 0;
    while (reading->at < reading->count && reading->entries[reading->at].level == level) {
        const struct journal_field *entry = &reading->entries[reading->at];
        place = place_of(record->fields, record->count, place, entry->number);
        if (place < 0) {
            return Qundef;
        }
        reading->at += 1;
        VALUE value = read_value(reading, record, place, entry);
        if (value == Qundef) {
            return Qundef;
        }
        put(values, record, place, value);
    }
    for (long at = 0; record->has_lists && at < record->count; at += 1) {
        if (record->fields[at].shape == REPEATED) {
            rb_obj_freeze(RARRAY_AREF(values, record->rows[at].slot));
        }
    }
    VALUE made = rb_obj_alloc(record->class);
    rb_ivar_set(made, values_variable, rb_obj_freeze(values));
    return rb_obj_freeze(made);
}

/* A call of the library that finds the fields of a payload. */
struct finding {
    uint32_t schema;
    const uint8_t *bytes;
    size_t length;
    struct journal_field *entries;
    size_t room;
    int64_t count;
};

static void *find(void *given)
{
    struct finding *finding = given;
    finding->count = native.library.fields(finding->schema, finding->bytes, finding->length, finding->entries,
                                           finding->room);
    return NULL;
}

/* The number of the entries of a payload; those are written that there is room for. Those of a long one are
 * found while other threads run, which cannot change it. */
static int64_t fields_of(const struct record *record, VALUE bytes, struct journal_field *entries, size_t room)
{
    struct finding finding = {(uint32_t)record->schema, (const uint8_t *)RSTRING_PTR(bytes),
                              (size_t)RSTRING_LEN(bytes), entries, room, -1};
    if (finding.length < LONG) {
        find(&finding);
    } else {
        rb_thread_call_without_gvl(find, &finding, NULL, NULL);
    }
    return finding.count;
}

/* The record of a payload, or Qundef. */
static VALUE decoded(const struct record *record, VALUE payload)
{
    struct journal_field first[ENTRIES];
    struct journal_field *entries = first;
    VALUE holder = Qfalse;
    VALUE bytes = rb_str_new_frozen(payload);
    int64_t count = fields_of(record, bytes, entries, ENTRIES);
    if (count > ENTRIES) {
        size_t room = (size_t)count;
        entries = rb_alloc_tmp_buffer2(&holder, (long)room, sizeof *entries);
        count = fields_of(record, bytes, entries, room);
        count = count > (int64_t)room ? -1 : count;
    }
    VALUE made = Qundef;
    if (count >= 0) {
        struct reading reading = {.entries = entries, .count = count, .at = 0, .bytes = bytes};
        made = read_record(&reading, record, 0);
    }
    if (holder != Qfalse) {
        rb_free_tmp_buffer(&holder);
    }
    RB_GC_GUARD(bytes);
    return made;
}

static VALUE decode(VALUE class, VALUE payload)
{
    const struct record *record = record_of(class);
    VALUE made = record == NULL || !RB_TYPE_P(payload, T_STRING) ? Qundef : decoded(record, payload);
    return made != Qundef ? made : rb_funcall(class, decode_in_ruby, 1, payload);
}

/*
 * Writing.
 */

/* The table of a record, and the bytes that its entries are places in. What is long is in strings of Ruby's. */
struct writing {
    struct journal_field *entries;
    size_t count;
    size_t entries_room;
    char *bytes;
    size_t size;
    size_t bytes_room;
    VALUE entries_holder;
    VALUE bytes_holder;
    struct journal_field first_entries[ENTRIES];
    char first_bytes[BYTES];
};

static bool write_record(struct writing *writing, const struct record *record, VALUE object, uint64_t level);

/* More memory, with what is in use of what there was. */
static void *grown(VALUE *holder, const void *memory, size_t used, size_t wanted)
{
    VALUE found = rb_str_tmp_new((long)wanted);
    memcpy(RSTRING_PTR(found), memory, used);
    *holder = found;
    return RSTRING_PTR(found);
}

/* Appends an entry, unless it is that of a plain field with its default, which no table of a payload has. */
static void add_entry(struct writing *writing, const struct field *field, uint64_t level, uint64_t value,
                      uint64_t length)
{
    if (is_left_out(field, value, length)) {
        return;
    }
    if (writing->count == writing->entries_room) {
        size_t used = writing->count * sizeof *writing->entries;
        writing->entries = grown(&writing->entries_holder, writing->entries, used, 2 * used);
        writing->entries_room *= 2;
    }
    writing->entries[writing->count++] = entry_of(field, level, value, writing->size, length);
}

static void add_string(struct writing *writing, const struct field *field, uint64_t level, VALUE string)
{
    size_t length = (size_t)RSTRING_LEN(string);
    add_entry(writing, field, level, 0, length);
    if (writing->bytes_room - writing->size < length) {
        size_t wanted = 2 * (writing->size + length);
        writing->bytes = grown(&writing->bytes_holder, writing->bytes, writing->size, wanted);
        writing->bytes_room = wanted;
    }
    memcpy(writing->bytes + writing->size, RSTRING_PTR(string), length);
    writing->size += length;
}

/* Appends the entries of a value of the field at a place; false where it is left to Ruby. */
static bool write_value(struct writing *writing, const struct record *record, long place, uint64_t level, VALUE value)
{
    const struct field *field = &record->fields[place];
    uint64_t number;
    switch (field->kind) {
    case JOURNAL_FIELD_MESSAGE: {
        const struct record *held = &native.records[record->rows[place].schema];
        if (!RB_TYPE_P(value, T_OBJECT) || RBASIC_CLASS(value) != held->class) {
            return false;
        }
        add_entry(writing, field, level, (uint64_t)held->schema, 0);
        return write_record(writing, held, value, level + 1);
    }
    case JOURNAL_FIELD_STRING:
    case JOURNAL_FIELD_BYTES:
        if (!RB_TYPE_P(value, T_STRING) || (field->kind == JOURNAL_FIELD_STRING && !is_plain_text(value))) {
            return false;
        }
        add_string(writing, field, level, value);
        return true;
    case JOURNAL_FIELD_BOOL:
        if (value != Qtrue && value != Qfalse) {
            return false;
        }
        add_entry(writing, field, level, value == Qtrue, 0);
        return true;
    default:
        if (!number_of_value(field, &record->rows[place], value, &number)) {
            return false;
        }
        add_entry(writing, field, level, number, 0);
        return true;
    }
}

/* Appends the entries of a value, which is that of the field at a place, or of those of the oneof that begins there. */
static bool write_fields(struct writing *writing, const struct record *record, long place, uint64_t level, VALUE value)
{
    if (record->fields[place].shape == MEMBER) {
        long found = member_of_value(record, place, value);
        return found >= 0 && write_value(writing, record, found, level, held_by(&record->rows[found], value));
    }
    if (record->fields[place].shape != REPEATED) {
        return write_value(writing, record, place, level, value);
    }
    if (!RB_TYPE_P(value, T_ARRAY)) {
        return false;
    }
    for (long at = 0; at < RARRAY_LEN(value); at += 1) {
        if (!write_value(writing, record, place, level, RARRAY_AREF(value, at))) {
            return false;
        }
    }
    return true;
}

/* Appends the entries of a record, whose values are in the order of its fields; false where it is left to Ruby. */
static bool write_record(struct writing *writing, const struct record *record, VALUE object, uint64_t level)
{
    VALUE values = values_of(record, object);
    if (values == Qundef || ruby_stack_check()) {
        return false;
    }
    for (long place = 0; place < record->count; place = record->rows[place].end) {
        VALUE value = RARRAY_AREF(values, record->rows[place].slot);
        if (!NIL_P(value) && !write_fields(writing, record, place, level, value)) {
            return false;
        }
    }
    RB_GC_GUARD(values);
    return true;
}

/* How many bytes are before the payload of a frame. */
#define HEADER 8

/* A call of the library that writes a table as a payload. */
struct making {
    const struct record *record;
    const struct writing *writing;
    uint8_t *payload;
    size_t room;
    int64_t length; /* -1 if there is no payload */
};

static void *make_payload(void *given)
{
    struct making *making = given;
    const struct writing *writing = making->writing;
    struct journal_writing written;
    const uint8_t *bytes = (const uint8_t *)writing->bytes;
    int64_t length = native.library.payload_of_fields((uint32_t)making->record->schema, writing->entries,
                                                      writing->count, bytes, writing->size, &written,
                                                      JOURNAL_WRITING_NUMBERS, making->payload, making->room);
    making->length = length >= 0 && written.kind == JOURNAL_WRITTEN ? length : -1;
    return NULL;
}

/* What is written: a payload, or a frame, whose header is that of its record's type at a version. */
struct wanted {
    bool is_frame;
    uint32_t version;
};

/* Writes the header of a frame before its payload; false if the library has none. */
static bool write_header(const struct record *record, const struct wanted *wanted, uint8_t *payload, int64_t length)
{
    if (!wanted->is_frame) {
        return true;
    }
    return length <= UINT32_MAX &&
           native.library.header(wanted->version, (uint16_t)record->code, (uint32_t)length, payload - HEADER,
                                 HEADER) == HEADER;
}

/* What is written, with a payload that is where there is room for a header before it; Qundef if there is none. */
static VALUE short_bytes(const struct record *record, const struct wanted *wanted, uint8_t *payload, int64_t length)
{
    long front = wanted->is_frame ? HEADER : 0;
    if (length < 0 || !write_header(record, wanted, payload, length)) {
        return Qundef;
    }
    return rb_str_new((const char *)payload - front, front + (long)length);
}

/* What is written of a table, or Qundef; there is room for a payload of BYTES. A long one is made while other threads
 * run. */
static VALUE bytes_of(const struct record *record, const struct writing *writing, const struct wanted *wanted,
                      uint8_t *payload)
{
    long front = wanted->is_frame ? HEADER : 0;
    /* what is enough for most */
    size_t room = writing->size + 6 * writing->count;
    if (room <= BYTES) {
        struct making making = {record, writing, payload, BYTES, -1};
        make_payload(&making);
        if (making.length <= BYTES) {
            return short_bytes(record, wanted, payload, making.length);
        }
        room = (size_t)making.length;
    }
    for (;;) {
        VALUE found = rb_str_buf_new((long)room + front);
        struct making making = {record, writing, (uint8_t *)RSTRING_PTR(found) + front, room, -1};
        if (room < LONG) {
            make_payload(&making);
        } else {
            rb_thread_call_without_gvl(make_payload, &making, NULL, NULL);
        }
        bool is_whole = making.length >= 0 && (size_t)making.length <= room;
        if (making.length < 0 || (is_whole && !write_header(record, wanted, making.payload, making.length))) {
            return Qundef;
        }
        if (is_whole) {
            rb_str_set_len(found, front + (long)making.length);
            return found;
        }
        RB_GC_GUARD(found);
        room = (size_t)making.length;
    }
}

/* What is written of a record by its table, or Qundef. */
static VALUE written_by_table(const struct record *record, VALUE object, const struct wanted *wanted, uint8_t *payload)
{
    VALUE found = Qundef;
    struct writing writing;
    writing.entries = writing.first_entries;
    writing.count = 0;
    writing.entries_room = ENTRIES;
    writing.bytes = writing.first_bytes;
    writing.size = 0;
    writing.bytes_room = BYTES;
    writing.entries_holder = Qfalse;
    writing.bytes_holder = Qfalse;
    if (write_record(&writing, record, object, 0)) {
        found = bytes_of(record, &writing, wanted, payload);
    }
    RB_GC_GUARD(writing.entries_holder);
    RB_GC_GUARD(writing.bytes_holder);
    return found;
}

/* What is written of a record, or Qundef. */
static VALUE written(const struct record *record, VALUE object, const struct wanted *wanted)
{
    uint8_t out[HEADER + BYTES];
    uint8_t *payload = out + HEADER;
    long length = write_struct(record, object, payload);
    return length < 0 ? written_by_table(record, object, wanted, payload)
                      : short_bytes(record, wanted, payload, length);
}

static VALUE encode(VALUE object)
{
    const struct record *record = record_of(RBASIC_CLASS(object));
    struct wanted wanted = {.is_frame = false};
    VALUE found = record == NULL ? Qundef : written(record, object, &wanted);
    return found != Qundef ? found : rb_funcall(object, encode_in_ruby, 0);
}

/* The frame of a record at a version; that of a version which has another record of its type is left to Ruby, and that
 * at the field numbers of a numbering. */
static VALUE frame(int count, VALUE *values, VALUE object)
{
    if (rb_keyword_given_p()) {
        return rb_funcallv_kw(object, frame_in_ruby, count, values, RB_PASS_KEYWORDS);
    }
    rb_check_arity(count, 0, 1);
    VALUE version = count == 0 ? INT2FIX(8) : values[0];
    const struct record *record = record_of(RBASIC_CLASS(object));
    bool is_usual = record != NULL && record->code >= 0 && FIXNUM_P(version) && FIX2LONG(version) >= 0 &&
                    FIX2LONG(version) <= UINT32_MAX;
    if (is_usual) {
        struct wanted wanted = {.is_frame = true, .version = (uint32_t)FIX2LONG(version)};
        bool is_of = native.library.schema(wanted.version, (uint16_t)record->code) == record->schema;
        VALUE found = is_of ? written(record, object, &wanted) : Qundef;
        if (found != Qundef) {
            return found;
        }
    }
    return rb_funcall(object, frame_in_ruby, 1, version);
}

void define_records(VALUE pendratsoa)
{
    VALUE record = rb_const_get(pendratsoa, rb_intern("Record"));
    decode_in_ruby = rb_intern("decode_in_ruby");
    encode_in_ruby = rb_intern("encode_in_ruby");
    frame_in_ruby = rb_intern("frame_in_ruby");
    rb_define_singleton_method(record, "decode", decode, 1);
    rb_define_method(record, "encode", encode, 0);
    rb_define_method(rb_const_get(pendratsoa, rb_intern("MessageRecord")), "frame", frame, -1);
}
