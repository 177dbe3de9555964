/* Records, read from the table of fields and written as one. */
#include "module.h"

/*
 * Reading.
 */

/* The entries of a payload, and which of them comes next. */
struct reading {
    const struct native *native;
    const struct journal_field *entries;
    Py_ssize_t count;
    Py_ssize_t at;
    const char *bytes;
    uint64_t length;
};

static PyObject *read_record(struct reading *reading, const struct record *record, uint64_t level);

/* A value of an enum: one of its members, or what its class makes of another number. */
static PyObject *enum_of(const struct row *row, uint64_t value)
{
    PyObject *number = PyLong_FromLongLong((long long)value);
    if (number == NULL) {
        return NULL;
    }
    PyObject *found = PyDict_GetItemWithError(row->members, number);
    if (found != NULL) {
        Py_INCREF(found);
    } else if (!PyErr_Occurred()) {
        found = PyObject_CallFunctionObjArgs(row->enumeration, number, NULL);
    }
    Py_DECREF(number);
    return found;
}

/* The value of an entry. NULL without an exception where its bytes are not in the payload. */
static PyObject *read_value(struct reading *reading, const struct record *record, long place,
                            const struct journal_field *entry)
{
    const struct row *row = &record->rows[place];
    uint64_t kind = record->fields[place].kind;
    switch (kind) {
    case JOURNAL_FIELD_STRING:
    case JOURNAL_FIELD_BYTES:
        if (!is_within(entry, reading->length)) {
            return NULL;
        }
        const char *bytes = reading->bytes + entry->offset;
        Py_ssize_t length = (Py_ssize_t)entry->length;
        return kind == JOURNAL_FIELD_BYTES ? PyBytes_FromStringAndSize(bytes, length)
                                           : PyUnicode_DecodeUTF8(bytes, length, NULL);
    case JOURNAL_FIELD_MESSAGE:
        return read_record(reading, &reading->native->records[row->schema], entry->level + 1);
    case JOURNAL_FIELD_BOOL:
        return PyBool_FromLong(entry->value != 0);
    case JOURNAL_FIELD_ENUM:
        return enum_of(row, entry->value);
    default:
        return PyLong_FromUnsignedLongLong(entry->value);
    }
}

/* The class of a member of a oneof around a value, which is taken. */
static PyObject *wrapped(const struct native *native, const struct row *row, PyObject *value)
{
    PyObject *made = NULL;
    PyObject *values = PyDict_New();
    if (values != NULL && PyDict_SetItem(values, native->value_name, value) == 0) {
        made = instance_of(native, row->wrapper, values);
    }
    Py_XDECREF(values);
    Py_DECREF(value);
    return made;
}

/* Reads the entries of a level into the attributes of a record, and into its lists. */
static int read_entries(struct reading *reading, const struct record *record, uint64_t level, PyObject *values,
                        PyObject **lists)
{
    long place = 0;
    while (reading->at < reading->count && reading->entries[reading->at].level == level) {
        const struct journal_field *entry = &reading->entries[reading->at];
        place = place_of(record->fields, (long)record->count, place, entry->number);
        if (place < 0) {
            return -1;
        }
        const struct row *row = &record->rows[place];
        reading->at += 1;
        PyObject *value = read_value(reading, record, place, entry);
        if (value != NULL && row->wrapper != NULL) {
            value = wrapped(reading->native, row, value);
        }
        if (value == NULL) {
            return -1;
        }
        int failed;
        if (record->fields[place].shape != REPEATED) {
            failed = PyDict_SetItem(values, row->name, value);
        } else {
            PyObject **list = &lists[row->list];
            *list = *list != NULL ? *list : PyList_New(0);
            failed = *list == NULL ? -1 : PyList_Append(*list, value);
        }
        Py_DECREF(value);
        if (failed) {
            return -1;
        }
    }
    return 0;
}

/* Makes the lists attributes, as tuples. */
static int put_lists(const struct record *record, PyObject *values, PyObject **lists)
{
    for (Py_ssize_t at = 0; at < record->count; at += 1) {
        const struct row *row = &record->rows[at];
        if (record->fields[at].shape == REPEATED && lists[row->list] != NULL) {
            PyObject *tuple = PyList_AsTuple(lists[row->list]);
            int failed = tuple == NULL ? -1 : PyDict_SetItem(values, row->name, tuple);
            Py_XDECREF(tuple);
            if (failed) {
                return -1;
            }
        }
    }
    return 0;
}

/* The record of the entries of a level, from the next one on. NULL without an exception is left to Python. */
static PyObject *read_record(struct reading *reading, const struct record *record, uint64_t level)
{
    if (Py_EnterRecursiveCall(" while a record is decoded")) {
        return NULL;
    }
    PyObject *made = NULL;
    PyObject *lists[LISTS] = {NULL};
    PyObject *values = PyDict_Copy(record->defaults);
    if (values != NULL && read_entries(reading, record, level, values, lists) == 0 &&
        put_lists(record, values, lists) == 0) {
        made = instance_of(reading->native, (PyObject *)record->class, values);
    }
    for (Py_ssize_t at = 0; at < record->lists; at += 1) {
        Py_XDECREF(lists[at]);
    }
    Py_XDECREF(values);
    Py_LeaveRecursiveCall();
    return made;
}

/* The number of the entries of a payload; those are written that there is room for. */
static int64_t fields_of(const struct record_codec *self, const struct reading *reading, struct journal_field *entries,
                         size_t room)
{
    const uint8_t *bytes = (const uint8_t *)reading->bytes;
    uint32_t schema = (uint32_t)self->schema;
    const struct library *library = &self->native->library;
    if (reading->length < LONG) {
        return library->fields(schema, bytes, reading->length, entries, room);
    }
    int64_t count;
    Py_BEGIN_ALLOW_THREADS
    count = library->fields(schema, bytes, reading->length, entries, room);
    Py_END_ALLOW_THREADS
    return count;
}

/* None, unless there is an exception: what is wrong is said in Python. Memory that is not there, and an interrupt, are
 * said here. */
static PyObject *left_to_python(void)
{
    if (PyErr_Occurred()) {
        if (PyErr_ExceptionMatches(PyExc_MemoryError) || !PyErr_ExceptionMatches(PyExc_Exception)) {
            return NULL;
        }
        PyErr_Clear();
    }
    Py_RETURN_NONE;
}

PyDoc_STRVAR(decode_doc, "decode(payload)\n--\n\nThe record of canonical bytes, or None where it is left to Python.");

static PyObject *decode(struct record_codec *self, PyObject *payload)
{
    if (!PyBytes_CheckExact(payload)) {
        Py_RETURN_NONE;
    }
    struct reading reading = {
        .native = self->native,
        .bytes = PyBytes_AsString(payload),
        .length = (uint64_t)PyBytes_Size(payload),
    };
    struct journal_field first[ENTRIES];
    struct journal_field *entries = first;
    int64_t count = fields_of(self, &reading, first, ENTRIES);
    if (count > ENTRIES) {
        size_t room = (size_t)count;
        entries = room > PY_SSIZE_T_MAX / sizeof *entries ? NULL : PyMem_Malloc(room * sizeof *entries);
        if (entries == NULL) {
            return PyErr_NoMemory();
        }
        count = fields_of(self, &reading, entries, room);
        count = count > (int64_t)room ? -1 : count;
    }
    PyObject *made = NULL;
    if (count >= 0) {
        reading.entries = entries;
        reading.count = (Py_ssize_t)count;
        made = read_record(&reading, &self->native->records[self->schema], 0);
    }
    if (entries != first) {
        PyMem_Free(entries);
    }
    return made != NULL ? made : left_to_python();
}

/*
 * Writing.
 */

/* The table of a record, and the bytes that its entries are places in. */
struct writing {
    const struct native *native;
    struct journal_field *entries;
    size_t count;
    size_t entries_room;
    char *bytes;
    size_t size;
    size_t bytes_room;
    struct journal_field first_entries[ENTRIES];
    char first_bytes[BYTES];
};

static int write_record(struct writing *writing, const struct record *record, PyObject *object, uint64_t level);

/* More memory for the first `used` bytes of `memory`; NULL with an exception if there is none. */
static void *grown(void *memory, const void *first, size_t used, size_t wanted)
{
    void *found = NULL;
    if (wanted <= PY_SSIZE_T_MAX) {
        found = memory == first ? PyMem_Malloc(wanted) : PyMem_Realloc(memory, wanted);
    }
    if (found == NULL) {
        PyErr_NoMemory();
    } else if (memory == first) {
        memcpy(found, first, used);
    }
    return found;
}

/* Appends an entry, unless it is that of a plain field with its default, which no table of a payload has. */
static int add_entry(struct writing *writing, const struct field *field, uint64_t level, uint64_t value,
                     uint64_t length)
{
    if (is_left_out(field, value, length)) {
        return 0;
    }
    if (writing->count == writing->entries_room) {
        size_t size = sizeof *writing->entries;
        void *found =
            grown(writing->entries, writing->first_entries, writing->count * size, 2 * writing->entries_room * size);
        if (found == NULL) {
            return -1;
        }
        writing->entries = found;
        writing->entries_room *= 2;
    }
    writing->entries[writing->count++] = entry_of(field, level, value, writing->size, length);
    return 0;
}

/* Appends an entry of the bytes of an object. */
static int add_bytes(struct writing *writing, const struct field *field, uint64_t level, PyObject *object)
{
    size_t length = (size_t)PyBytes_Size(object);
    if (add_entry(writing, field, level, 0, length) != 0) {
        return -1;
    }
    if (writing->bytes_room - writing->size < length) {
        size_t wanted = 2 * (writing->size + length);
        void *found = grown(writing->bytes, writing->first_bytes, writing->size, wanted);
        if (found == NULL) {
            return -1;
        }
        writing->bytes = found;
        writing->bytes_room = wanted;
    }
    memcpy(writing->bytes + writing->size, PyBytes_AsString(object), length);
    writing->size += length;
    return 0;
}

/* Appends a text, also one with half a surrogate, which the library rejects. */
static int add_text(struct writing *writing, const struct field *field, uint64_t level, PyObject *text)
{
    PyObject *bytes = PyUnicode_AsEncodedString(text, NULL, "surrogatepass");
    if (bytes == NULL) {
        return -1;
    }
    int failed = add_bytes(writing, field, level, bytes);
    Py_DECREF(bytes);
    return failed;
}

/* Whether a value is of the type that a field has. */
static bool is_of(const struct native *native, const struct record *record, Py_ssize_t place, PyObject *value)
{
    switch (record->fields[place].kind) {
    case JOURNAL_FIELD_MESSAGE:
        return Py_TYPE(value) == native->records[record->rows[place].schema].class;
    case JOURNAL_FIELD_STRING:
        return PyUnicode_Check(value);
    case JOURNAL_FIELD_BYTES:
        return PyBytes_CheckExact(value);
    default:
        return PyLong_Check(value);
    }
}

/* Appends the entries of a value of the field at a place. -1 without an exception is left to Python. */
static int write_value(struct writing *writing, const struct record *record, Py_ssize_t place, uint64_t level,
                       PyObject *value)
{
    const struct field *field = &record->fields[place];
    if (!is_of(writing->native, record, place, value)) {
        return -1;
    }
    switch (field->kind) {
    case JOURNAL_FIELD_MESSAGE: {
        Py_ssize_t schema = record->rows[place].schema;
        return add_entry(writing, field, level, (uint64_t)schema, 0) != 0
                   ? -1
                   : write_record(writing, &writing->native->records[schema], value, level + 1);
    }
    case JOURNAL_FIELD_STRING:
        return add_text(writing, field, level, value);
    case JOURNAL_FIELD_BYTES:
        return add_bytes(writing, field, level, value);
    default:
        break;
    }
    /* the number of an enum may be negative, as the table has it */
    uint64_t number = field->kind == JOURNAL_FIELD_ENUM ? (uint64_t)PyLong_AsLongLong(value)
                                                        : (uint64_t)PyLong_AsUnsignedLongLong(value);
    return number == UINT64_MAX && PyErr_Occurred() ? -1 : add_entry(writing, field, level, number, 0);
}

/* Appends the entries of a list, or of a tuple. */
static int write_list(struct writing *writing, const struct record *record, Py_ssize_t place, uint64_t level,
                      PyObject *list)
{
    bool is_tuple = PyTuple_CheckExact(list);
    if (!is_tuple && !PyList_CheckExact(list)) {
        return -1;
    }
    for (Py_ssize_t at = 0; at < (is_tuple ? PyTuple_Size(list) : PyList_Size(list)); at += 1) {
        PyObject *value = is_tuple ? PyTuple_GetItem(list, at) : PyList_GetItem(list, at);
        if (value == NULL) {
            return -1;
        }
        Py_INCREF(value);
        int failed = write_value(writing, record, place, level, value);
        Py_DECREF(value);
        if (failed) {
            return -1;
        }
    }
    return 0;
}

/* Appends the entry of the member of a oneof that a value is of, among the fields from a place to an end. */
static int write_member(struct writing *writing, const struct record *record, Py_ssize_t place, Py_ssize_t end,
                        uint64_t level, PyObject *value)
{
    for (; place < end; place += 1) {
        PyObject *wrapper = record->rows[place].wrapper;
        if (wrapper == NULL) {
            if (is_of(writing->native, record, place, value)) {
                return write_value(writing, record, place, level, value);
            }
        } else if ((PyObject *)Py_TYPE(value) == wrapper) {
            PyObject *held = PyObject_GetAttr(value, writing->native->value_name);
            int failed = held == NULL ? -1 : write_value(writing, record, place, level, held);
            Py_XDECREF(held);
            return failed;
        }
    }
    return -1;
}

/* Appends the entries of an attribute, which is that of the field at a place, or of those of a oneof up to an end. */
static int write_attribute(struct writing *writing, const struct record *record, Py_ssize_t place, Py_ssize_t end,
                           uint64_t level, PyObject *value)
{
    switch (record->fields[place].shape) {
    case REPEATED:
        return write_list(writing, record, place, level, value);
    case PLAIN:
        return write_value(writing, record, place, level, value);
    case OPTIONAL:
        return value == Py_None ? 0 : write_value(writing, record, place, level, value);
    default:
        return value == Py_None ? 0 : write_member(writing, record, place, end, level, value);
    }
}

/* Where the fields of the attribute of a field end: of a oneof they are side by side. */
static Py_ssize_t end_of(const struct record *record, Py_ssize_t place)
{
    Py_ssize_t end = place + 1;
    while (record->fields[place].shape == MEMBER && end < record->count && record->fields[end].shape == MEMBER &&
           record->rows[end].name == record->rows[place].name) {
        end += 1;
    }
    return end;
}

/* Appends the entries of the attributes of a record. */
static int write_values(struct writing *writing, const struct record *record, PyObject *values, uint64_t level)
{
    Py_ssize_t end;
    for (Py_ssize_t place = 0; place < record->count; place = end) {
        end = end_of(record, place);
        PyObject *value = PyDict_GetItemWithError(values, record->rows[place].name);
        if (value == NULL) {
            return -1;
        }
        /* what runs while memory is collected could drop it */
        Py_INCREF(value);
        int failed = write_attribute(writing, record, place, end, level, value);
        Py_DECREF(value);
        if (failed) {
            return -1;
        }
    }
    return 0;
}

/* Appends the entries of a record. -1 without an exception is left to Python. */
static int write_record(struct writing *writing, const struct record *record, PyObject *object, uint64_t level)
{
    if (record->count == 0) {
        return 0;
    }
    if (Py_EnterRecursiveCall(" while a record is encoded")) {
        return -1;
    }
    PyObject *values = PyObject_GetAttr(object, writing->native->dict_name);
    int failed = values == NULL || !PyDict_CheckExact(values) ? -1 : write_values(writing, record, values, level);
    Py_XDECREF(values);
    Py_LeaveRecursiveCall();
    return failed;
}

/* The length of the payload of a table, which is written if there is room for it; -1 if there is none. */
static int64_t payload_of(const struct record_codec *self, const struct writing *writing, uint8_t *out, size_t room)
{
    struct journal_writing written;
    const uint8_t *bytes = (const uint8_t *)writing->bytes;
    int64_t length =
        self->native->library.payload_of_fields((uint32_t)self->schema, writing->entries, writing->count, bytes,
                                                writing->size, &written, JOURNAL_WRITING_NUMBERS, out, room);
    return length >= 0 && written.kind == JOURNAL_WRITTEN ? length : -1;
}

/* How many bytes are before the payload of a frame. */
#define HEADER 8

/* What is written: a payload, or a frame, whose header is that of a type at a version. */
struct wanted {
    bool is_frame;
    uint32_t version;
    uint16_t code;
};

/* The payload of a table as bytes, after its header in a frame, in room that begins with that of a header; NULL without
 * an exception if the library has no such header. */
static PyObject *found_bytes(const struct record_codec *self, const struct wanted *wanted, uint8_t *out, int64_t length)
{
    if (!wanted->is_frame) {
        return PyBytes_FromStringAndSize((const char *)out + HEADER, (Py_ssize_t)length);
    }
    const struct library *library = &self->native->library;
    if (length > UINT32_MAX ||
        library->header(wanted->version, wanted->code, (uint32_t)length, out, HEADER) != HEADER) {
        return NULL;
    }
    return PyBytes_FromStringAndSize((const char *)out, (Py_ssize_t)length + HEADER);
}

/* What is written of a long table, which is made while other threads run. */
static PyObject *long_bytes(const struct record_codec *self, const struct writing *writing,
                            const struct wanted *wanted, size_t room)
{
    for (;;) {
        uint8_t *out = room > PY_SSIZE_T_MAX - HEADER ? NULL : PyMem_Malloc(room + HEADER);
        if (out == NULL) {
            return PyErr_NoMemory();
        }
        int64_t length;
        Py_BEGIN_ALLOW_THREADS
        length = payload_of(self, writing, out + HEADER, room);
        Py_END_ALLOW_THREADS
        bool is_whole = length >= 0 && (size_t)length <= room;
        PyObject *found = is_whole ? found_bytes(self, wanted, out, length) : NULL;
        PyMem_Free(out);
        if (is_whole || length < 0) {
            return found;
        }
        room = (size_t)length;
    }
}

/* What is written of a table, or NULL. */
static PyObject *bytes_of(const struct record_codec *self, const struct writing *writing, const struct wanted *wanted)
{
    /* what is enough for most */
    size_t room = writing->size + 6 * writing->count;
    if (room <= BYTES) {
        uint8_t out[HEADER + BYTES];
        int64_t length = payload_of(self, writing, out + HEADER, BYTES);
        if (length <= BYTES) {
            return length < 0 ? NULL : found_bytes(self, wanted, out, length);
        }
        room = (size_t)length;
    }
    return long_bytes(self, writing, wanted, room);
}

/* What is written of a record, or None where it is left to Python. */
static PyObject *written(const struct record_codec *self, PyObject *object, const struct wanted *wanted)
{
    struct writing writing;
    writing.native = self->native;
    writing.entries = writing.first_entries;
    writing.count = 0;
    writing.entries_room = ENTRIES;
    writing.bytes = writing.first_bytes;
    writing.size = 0;
    writing.bytes_room = BYTES;
    PyObject *found = NULL;
    if (write_record(&writing, &self->native->records[self->schema], object, 0) == 0) {
        found = bytes_of(self, &writing, wanted);
    }
    if (writing.entries != writing.first_entries) {
        PyMem_Free(writing.entries);
    }
    if (writing.bytes != writing.first_bytes) {
        PyMem_Free(writing.bytes);
    }
    return found != NULL ? found : left_to_python();
}

PyDoc_STRVAR(encode_doc, "encode(record)\n--\n\nThe payload of a record, or None where it is left to Python.");

static PyObject *encode(struct record_codec *self, PyObject *object)
{
    struct wanted wanted = {.is_frame = false};
    return written(self, object, &wanted);
}

PyDoc_STRVAR(frame_doc,
             "frame(record, version)\n--\n\nIts frame at a version, or None where it is left to Python, as that of a "
             "version which has another record of its type.");

static PyObject *frame(struct record_codec *self, PyObject *arguments)
{
    const struct record *record = &self->native->records[self->schema];
    PyObject *object, *number;
    if (!PyArg_ParseTuple(arguments, "OO", &object, &number)) {
        return NULL;
    }
    unsigned long version = PyLong_CheckExact(number) ? PyLong_AsUnsignedLong(number) : 0;
    if (PyErr_Occurred() || version > UINT32_MAX || record->code < 0) {
        return left_to_python();
    }
    struct wanted wanted = {.is_frame = true, .version = (uint32_t)version, .code = (uint16_t)record->code};
    bool is_of = self->native->library.schema(wanted.version, wanted.code) == self->schema;
    return is_of ? written(self, object, &wanted) : left_to_python();
}

static int record_codec_traverse(struct record_codec *self, visitproc visit, void *arg)
{
    Py_VISIT(self->native);
    Py_VISIT(Py_TYPE(self));
    return 0;
}

static void record_codec_dealloc(struct record_codec *self)
{
    PyTypeObject *type = Py_TYPE(self);
    PyObject_GC_UnTrack(self);
    Py_XDECREF(self->native);
    PyObject_GC_Del(self);
    Py_DECREF(type);
}

static PyMethodDef record_codec_methods[] = {
    {"decode", (PyCFunction)decode, METH_O, decode_doc},
    {"encode", (PyCFunction)encode, METH_O, encode_doc},
    {"frame", (PyCFunction)frame, METH_VARARGS, frame_doc},
    {NULL, NULL, 0, NULL},
};

static PyType_Slot record_codec_slots[] = {
    {Py_tp_doc, "The functions of a record."},
    {Py_tp_new, made_by_native},
    {Py_tp_traverse, record_codec_traverse},
    {Py_tp_dealloc, record_codec_dealloc},
    {Py_tp_methods, record_codec_methods},
    {0, NULL},
};

PyType_Spec record_codec_spec = {
    .name = "pendratsoa._compiled.RecordCodec",
    .basicsize = sizeof(struct record_codec),
    .flags = Py_TPFLAGS_DEFAULT | Py_TPFLAGS_HAVE_GC,
    .slots = record_codec_slots,
};
