/*
 * What the files of the compiled module share: what it is given once, and what each file has.
 *
 * The library is given by the addresses of its functions, the records by what is generated of them, and the rest by
 * compiled.rb. Nothing is known here of how a payload is encoded. What is unusual, as a value of a wrong class, is left
 * to the methods in Ruby, which say what is wrong. No other thread runs in between, except in a long call.
 */
#ifndef MODULE_H
#define MODULE_H

#include <ruby.h>
#include <ruby/encoding.h>
#include <ruby/thread.h>
#include <ruby/version.h>

#include <stdbool.h>
#include <stdint.h>
#include <string.h>

#include "calls.h"

/* The room that is tried first: for entries, and for bytes. */
#define ENTRIES 64
#define BYTES 1024

/* From how many bytes on a value shares the memory of its payload. */
#define SHARED 1024

/* From how many bytes on a call of the library lets other threads run. */
#define LONG 65536

/* A field of a record: what it holds, next to what the table of fields has of it. Those of a oneof have one value. */
struct row {
    long slot;          /* the place of its value among those of a record */
    long end;           /* the place of the field after it, or after the others of its oneof */
    long schema;        /* of a message, the number of its schema */
    VALUE name;         /* the symbol, which is that of the oneof for a member */
    VALUE names;        /* of an enum, its names by their numbers, or nil */
    VALUE numbers;      /* of an enum, its numbers by their names, or nil */
    VALUE member_class; /* of a member of a oneof, its class, or nil for true and false */
    bool is_wrapped;    /* whether that class is made for it */
    /* where the C struct of the record has it: the value, or the pointer to the elements of a list; whether it is
     * there, which member of its oneof is, or how many elements a list has; and how many bytes an element has */
    size_t at;
    size_t said;
    size_t size;
};

/* A call of the library that writes the payload of a record by its C struct. */
typedef int64_t write_record_call(const void *record, uint8_t *out, size_t room);

/* A record: its class, the code of its type or -1, the values of its fields by default, in their order, and its fields;
 * those of a oneof are side by side, what is held next to what the table has. */
struct record {
    VALUE class;
    VALUE defaults;
    long schema;
    long code;
    long count;
    long slots;     /* how many values it has */
    bool has_lists; /* whether a field is repeated */
    bool is_first;  /* whether its objects have their values where their first variable is */
    struct field *fields;
    struct row *rows;
    /* its C struct: the call that writes it, or NULL if there is none, and its size */
    write_record_call *write;
    size_t size;
};

/* How many places there are for records by their classes: a power of two, four times as many as there are records. */
#define CLASSES 256

/* The classes of items, at the numbers of their kinds. */
#define ITEM_CLASSES 3

/* What the module is given, once the library is loaded. */
struct native {
    bool is_there;
    struct library library;
    struct record *records;
    long count;
    const struct record *by_class[CLASSES];
    VALUE items[ITEM_CLASSES];
    VALUE schemas;
};

extern struct native native;

/* The encodings of Strings, and the variables of records and of members. */
extern int binary, utf8, us_ascii;
extern ID values_variable, value_variable;

/* Loads the library if that is not done yet; a LoadError if there is none. */
void be_there(void);

/* The place of a class among those of records, from which on its record is looked for. */
static inline size_t place_of_class(VALUE class)
{
    return (size_t)((uint64_t)class * UINT64_C(0x9e3779b97f4a7c15) >> 32) % CLASSES;
}

/* The record of a class, or NULL, as for a class below one. */
static inline const struct record *record_of(VALUE class)
{
    size_t at = place_of_class(class);
    while (native.by_class[at] != NULL && native.by_class[at]->class != class) {
        at = (at + 1) % CLASSES;
    }
    return native.by_class[at];
}

/* The first variable of an object, or Qundef. To find it by its name would be a fifth of what encoding a short record
 * takes. Up to Ruby 3.1 a class gives each variable a place once, and all of its objects have it there. Later versions
 * give places otherwise, so variables are found by their names. */
#if RUBY_API_VERSION_CODE < 30200
#define FIRST_VARIABLE(object) (ROBJECT_NUMIV(object) > 0 ? *ROBJECT_IVPTR(object) : Qundef)
#else
#define FIRST_VARIABLE(object) Qundef
#endif

/* The values of the fields of a record in their order, or Qundef if it has none. */
static inline VALUE values_of(const struct record *record, VALUE object)
{
    VALUE values = record->is_first ? FIRST_VARIABLE(object) : rb_ivar_get(object, values_variable);
    return RB_TYPE_P(values, T_ARRAY) && RARRAY_LEN(values) == record->slots ? values : Qundef;
}

/* Whether the bytes of a text are UTF-8 as they are, if they are a text. */
static inline bool is_plain_text(VALUE string)
{
    int encoding = ENCODING_GET(string);
    return encoding == utf8 || encoding == binary || encoding == us_ascii;
}

/* The number of a value as the table has it, of an enum with its sign extended; false if it has none. */
static inline bool number_of_value(const struct field *field, const struct row *row, VALUE value, uint64_t *number)
{
    bool is_enum = field->kind == JOURNAL_FIELD_ENUM;
    if (is_enum && SYMBOL_P(value)) {
        value = rb_hash_lookup2(row->numbers, value, Qnil);
    }
    if (FIXNUM_P(value)) {
        *number = (uint64_t)FIX2LONG(value);
        return is_enum || FIX2LONG(value) >= 0;
    }
    if (is_enum || !RB_TYPE_P(value, T_BIGNUM)) {
        return false;
    }
    int flags = INTEGER_PACK_LSWORD_FIRST | INTEGER_PACK_NATIVE_BYTE_ORDER;
    return rb_integer_pack(value, number, 1, sizeof *number, 0, flags) == 1;
}

/* The place of the member that a value is of, among those of the oneof that begins at a place; -1 if it is of none. */
static inline long member_of_value(const struct record *record, long place, VALUE value)
{
    for (long end = record->rows[place].end; place < end; place += 1) {
        VALUE class = record->rows[place].member_class;
        bool is_of = NIL_P(class) ? value == Qtrue || value == Qfalse
                                  : CLASS_OF(value) == class || RTEST(rb_obj_is_kind_of(value, class));
        if (is_of) {
            return place;
        }
    }
    return -1;
}

/* What a value of a member of a oneof holds: itself, if no class is made for the member. */
static inline VALUE held_by(const struct row *row, VALUE value)
{
    return row->is_wrapped ? rb_ivar_get(value, value_variable) : value;
}

/* Says of a record where its struct has the fields, if the library takes it. */
void lay_out(struct record *record);

/* Writes the payload of a record as a struct, of at most BYTES, and returns its length; a negative number if the record
 * is left to the table of fields. */
long write_struct(const struct record *record, VALUE object, uint8_t *payload);

/* What each file defines. */
void define_records(VALUE pendratsoa);
void define_calls(VALUE pendratsoa);
void define_stream(VALUE pendratsoa);

#endif
