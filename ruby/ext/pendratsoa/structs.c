/*
 * Records written as the structs that the library takes, whose texts and bytes stay where Ruby has them.
 *
 * So none of these may be moved before the payload is there. Nothing is allocated here, and no method is called; but
 * while a variable is looked up, another Ractor may compact. So each String is on the stack too, where Ruby finds it. A
 * record that is long, or has a future, is left to the table of fields, and so is a value that no field can have.
 */
#include "module.h"
#include "structs.h"

/* How many bytes there are for the structs of a record and the elements of its lists. */
#define STRUCTS 4096

/* The most that their members are aligned to. */
#define ALIGNMENT 8

/* The struct of a record and what its lists point to, one after the other, how long all texts and bytes are, and the
 * Strings that have them. */
struct structs {
    size_t used;
    size_t length;
    size_t count;
    volatile VALUE strings[STRUCTS / sizeof(struct journal_slice)];
    _Alignas(ALIGNMENT) uint8_t memory[STRUCTS];
};

static bool fill(struct structs *structs, const struct record *record, VALUE object, uint8_t *to);

void lay_out(struct record *record)
{
    if ((size_t)record->schema >= sizeof LAYOUTS / sizeof *LAYOUTS) {
        return;
    }
    const struct layout *layout = &LAYOUTS[record->schema];
    if (layout->size == 0) {
        return;
    }
    bool is_same = layout->count == record->count;
    for (long place = 0; is_same && place < record->count; place += 1) {
        const struct place *found = &layout->places[place];
        struct row *row = &record->rows[place];
        row->at = found->at;
        row->said = found->said;
        row->size = found->size;
        is_same = found->number == record->fields[place].number;
    }
    if (!is_same) {
        rb_raise(rb_eArgError, "a record whose fields are not those of its struct");
    }
    record->size = layout->size;
}

/* Memory that is 0 for so many elements of a size, or NULL if there is not enough. */
static uint8_t *take(struct structs *structs, size_t count, size_t size)
{
    if (count > STRUCTS || count * size > STRUCTS - structs->used) {
        return NULL;
    }
    uint8_t *taken = structs->memory + structs->used;
    structs->used += (count * size + ALIGNMENT - 1) / ALIGNMENT * ALIGNMENT;
    return memset(taken, 0, count * size);
}

/* Puts the place and the length of a text or of bytes. */
static inline bool put_string(struct structs *structs, bool is_text, VALUE value, uint8_t *to)
{
    if (!RB_TYPE_P(value, T_STRING) || (is_text && !is_plain_text(value))) {
        return false;
    }
    const char *bytes;
    long length;
    RSTRING_GETMEM(value, bytes, length);
    struct journal_slice slice = {(const uint8_t *)bytes, (size_t)length};
    memcpy(to, &slice, sizeof slice);
    structs->strings[structs->count] = value;
    structs->count += 1;
    structs->length += slice.length;
    return structs->length <= BYTES;
}

/* Puts a number of a kind; false if it is not in the range of that. */
static bool put_number(uint64_t kind, uint64_t number, uint8_t *to)
{
    uint32_t low = (uint32_t)number;
    switch (kind) {
    case JOURNAL_FIELD_UINT64:
        memcpy(to, &number, sizeof number);
        return true;
    case JOURNAL_FIELD_UINT32:
        memcpy(to, &low, sizeof low);
        return low == number;
    default:
        memcpy(to, &low, sizeof low);
        return (uint64_t)(int64_t)(int32_t)low == number;
    }
}

/* Puts a value of a field that is neither a text nor bytes. */
static bool put_other(struct structs *structs, const struct field *field, const struct row *row, VALUE value,
                      uint8_t *to)
{
    uint64_t number;
    if (field->kind == JOURNAL_FIELD_MESSAGE) {
        const struct record *held = &native.records[row->schema];
        return RB_TYPE_P(value, T_OBJECT) && RBASIC_CLASS(value) == held->class && fill(structs, held, value, to);
    }
    if (field->kind == JOURNAL_FIELD_BOOL) {
        *to = value == Qtrue;
        return value == Qtrue || value == Qfalse;
    }
    return number_of_value(field, row, value, &number) && put_number(field->kind, number, to);
}

/* Puts a value of a field, or an element of its list. */
static inline bool put_value(struct structs *structs, const struct field *field, const struct row *row, VALUE value,
                             uint8_t *to)
{
    bool is_text = field->kind == JOURNAL_FIELD_STRING;
    return is_text || field->kind == JOURNAL_FIELD_BYTES ? put_string(structs, is_text, value, to)
                                                         : put_other(structs, field, row, value, to);
}

/* Puts which member of a oneof a value is of, and the value. */
static bool put_member(struct structs *structs, const struct record *record, long place, VALUE value, uint8_t *to)
{
    place = member_of_value(record, place, value);
    if (place < 0) {
        return false;
    }
    const struct field *field = &record->fields[place];
    const struct row *row = &record->rows[place];
    uint32_t number = (uint32_t)field->number;
    memcpy(to + row->said, &number, sizeof number);
    return put_value(structs, field, row, held_by(row, value), to + row->at);
}

/* Puts a pointer to the elements of a list, and their number. */
static bool put_list(struct structs *structs, const struct field *field, const struct row *row, VALUE list,
                     uint8_t *to)
{
    if (!RB_TYPE_P(list, T_ARRAY)) {
        return false;
    }
    size_t count = (size_t)RARRAY_LEN(list);
    uint8_t *elements = take(structs, count, row->size);
    if (elements == NULL) {
        return false;
    }
    memcpy(to + row->at, &elements, sizeof elements);
    memcpy(to + row->said, &count, sizeof count);
    for (size_t at = 0; at < count; at += 1) {
        if (!put_value(structs, field, row, RARRAY_AREF(list, (long)at), elements + at * row->size)) {
            return false;
        }
    }
    return true;
}

/* Fills the struct of a record, which is 0; false if the record is left to the table. */
static bool fill(struct structs *structs, const struct record *record, VALUE object, uint8_t *to)
{
    VALUE values = values_of(record, object);
    if (values == Qundef) {
        return false;
    }
    for (long slot = 0, place = 0; place < record->count; slot += 1, place = record->rows[place].end) {
        const struct field *field = &record->fields[place];
        const struct row *row = &record->rows[place];
        VALUE value = RARRAY_AREF(values, slot);
        bool is_put = true;
        if (NIL_P(value)) {
            continue;
        }
        if (field->shape == MEMBER) {
            is_put = put_member(structs, record, place, value, to);
        } else if (field->shape == REPEATED) {
            is_put = put_list(structs, field, row, value, to);
        } else {
            if (field->shape == OPTIONAL) {
                to[row->said] = true;
            }
            is_put = put_value(structs, field, row, value, to + row->at);
        }
        if (!is_put) {
            return false;
        }
    }
    return true;
}

long write_struct(const struct record *record, VALUE object, uint8_t *payload)
{
    struct structs structs;
    structs.used = 0;
    structs.length = 0;
    structs.count = 0;
    if (record->write == NULL) {
        return -1;
    }
    uint8_t *made = take(&structs, 1, record->size);
    if (made == NULL || !fill(&structs, record, object, made)) {
        return -1;
    }
    int64_t length = record->write(made, payload, BYTES);
    return length <= BYTES ? (long)length : -1;
}
