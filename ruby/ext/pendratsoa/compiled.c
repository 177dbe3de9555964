/* The compiled module: all calls of the library, records and streams, without Fiddle. */
#include "module.h"

struct native native;
int binary, utf8, us_ascii;
ID values_variable, value_variable;

static VALUE library_module;
static ID functions;

void be_there(void)
{
    if (!native.is_there) {
        rb_funcall(library_module, functions, 0);
    }
    if (!native.is_there) {
        rb_raise(rb_eLoadError, "pendratsoa: the library was not given to the compiled module");
    }
}

/* An element that stays as long as the process. */
static VALUE kept(VALUE array, long at)
{
    VALUE found = rb_ary_entry(array, at);
    rb_gc_register_mark_object(found);
    return found;
}

/* A row: its number, kind, shape, name, schema or -1, names, numbers, class as a member, and whether it is wrapped. */
static void take_row(struct field *field, struct row *row, VALUE given)
{
    Check_Type(given, T_ARRAY);
    field->number = NUM2ULL(rb_ary_entry(given, 0));
    field->kind = NUM2ULL(rb_ary_entry(given, 1));
    field->shape = (enum shape)NUM2INT(rb_ary_entry(given, 2));
    row->name = kept(given, 3);
    row->schema = NUM2LONG(rb_ary_entry(given, 4));
    row->names = kept(given, 5);
    row->numbers = kept(given, 6);
    row->member_class = kept(given, 7);
    row->is_wrapped = RTEST(rb_ary_entry(given, 8));
    bool is_message = field->kind == JOURNAL_FIELD_MESSAGE;
    bool is_enum = field->kind == JOURNAL_FIELD_ENUM;
    if (is_message != (row->schema >= 0 && row->schema < native.count) || is_enum != RB_TYPE_P(row->names, T_HASH) ||
        is_enum != RB_TYPE_P(row->numbers, T_HASH) || !SYMBOL_P(row->name)) {
        rb_raise(rb_eArgError, "a row that this module does not know");
    }
}

/* Says of each field where its value is, and which field comes after it; those of a oneof have the same name. */
static void place_values(struct record *record)
{
    for (long end, at = 0; at < record->count; at = end) {
        for (end = at + 1; record->fields[at].shape == MEMBER && end < record->count &&
                           record->rows[end].name == record->rows[at].name;) {
            end += 1;
        }
        for (long one = at; one < end; one += 1) {
            record->rows[one].slot = record->slots;
            record->rows[one].end = end;
        }
        record->has_lists = record->has_lists || record->fields[at].shape == REPEATED;
        record->slots += 1;
    }
    if (record->slots != RARRAY_LEN(record->defaults)) {
        rb_raise(rb_eArgError, "a record whose fields are not as many as its values");
    }
}

/* Whether the objects of a class have their values where their first variable is. */
static bool has_values_first(VALUE class)
{
    VALUE made = rb_obj_alloc(class);
    VALUE values = rb_ary_new();
    Check_Type(made, T_OBJECT);
    rb_ivar_set(made, values_variable, values);
    return FIRST_VARIABLE(made) == values;
}

/* A record: its class, the code of its type or -1, the values of its fields by default, its rows, and the address of
 * the function that writes its struct, or 0. */
static void take_record(struct record *record, long schema, VALUE given)
{
    Check_Type(given, T_ARRAY);
    VALUE rows = rb_ary_entry(given, 3);
    uintptr_t address = (uintptr_t)NUM2ULL(rb_ary_entry(given, 4));
    record->class = kept(given, 0);
    record->code = NUM2LONG(rb_ary_entry(given, 1));
    record->defaults = kept(given, 2);
    record->schema = schema;
    Check_Type(record->class, T_CLASS);
    Check_Type(record->defaults, T_ARRAY);
    Check_Type(rows, T_ARRAY);
    record->fields = ZALLOC_N(struct field, (size_t)RARRAY_LEN(rows) + 1);
    record->rows = ZALLOC_N(struct row, (size_t)RARRAY_LEN(rows) + 1);
    for (; record->count < RARRAY_LEN(rows); record->count += 1) {
        take_row(&record->fields[record->count], &record->rows[record->count], rb_ary_entry(rows, record->count));
    }
    place_values(record);
    record->is_first = has_values_first(record->class);
    lay_out(record);
    record->write = record->size > 0 && address != 0 ? (write_record_call *)address : NULL;
}

/* Puts a record where it is found by its class, or after that if another one is there. */
static void put_by_class(const struct record *record)
{
    size_t at = place_of_class(record->class);
    while (native.by_class[at] != NULL) {
        at = (at + 1) % CLASSES;
    }
    native.by_class[at] = record;
}

/* Takes the addresses of the functions, in the order of the header. */
static VALUE point_to(VALUE module, VALUE addresses)
{
    Check_Type(addresses, T_ARRAY);
    if (RARRAY_LEN(addresses) != FUNCTIONS) {
        rb_raise(rb_eArgError, "there are %d functions", FUNCTIONS);
    }
    uintptr_t found[FUNCTIONS];
    for (int place = 0; place < FUNCTIONS; place += 1) {
        found[place] = (uintptr_t)NUM2ULL(rb_ary_entry(addresses, place));
    }
    for (int place = 0; place < FUNCTIONS; place += 1) {
        point(&native.library, place, found[place]);
    }
    return module;
}

/* Takes these addresses, the records, the classes of items and the numbers of schemas by their names, once. */
static VALUE use(VALUE module, VALUE addresses, VALUE records, VALUE items, VALUE schemas)
{
    Check_Type(records, T_ARRAY);
    Check_Type(items, T_ARRAY);
    Check_Type(schemas, T_HASH);
    if (native.records != NULL || RARRAY_LEN(items) != ITEM_CLASSES || RARRAY_LEN(records) >= CLASSES) {
        rb_raise(rb_eArgError, "the records are there already, or are too many, or items have not three classes");
    }
    point_to(module, addresses);
    for (long at = 0; at < ITEM_CLASSES; at += 1) {
        native.items[at] = kept(items, at);
        Check_Type(native.items[at], T_CLASS);
    }
    native.schemas = schemas;
    rb_gc_register_mark_object(schemas);
    native.count = RARRAY_LEN(records);
    native.records = ZALLOC_N(struct record, (size_t)native.count);
    for (long schema = 0; schema < native.count; schema += 1) {
        take_record(&native.records[schema], schema, rb_ary_entry(records, schema));
    }
    for (long schema = 0; schema < native.count; schema += 1) {
        put_by_class(&native.records[schema]);
    }
    native.is_there = true;
    return module;
}

RUBY_FUNC_EXPORTED void Init_compiled(void);

void Init_compiled(void)
{
    VALUE pendratsoa = rb_const_get(rb_cObject, rb_intern("Pendratsoa"));
    VALUE module = rb_define_module_under(pendratsoa, "Compiled");
    library_module = rb_const_get(pendratsoa, rb_intern("Library"));
    rb_gc_register_mark_object(library_module);
    functions = rb_intern("functions");
    binary = rb_ascii8bit_encindex();
    utf8 = rb_utf8_encindex();
    us_ascii = rb_usascii_encindex();
    values_variable = rb_intern("@values");
    value_variable = rb_intern("@value");
    rb_define_singleton_method(module, "use", use, 4);
    rb_define_singleton_method(module, "point", point_to, 1);
    define_records(pendratsoa);
    define_calls(pendratsoa);
    define_stream(pendratsoa);
}
