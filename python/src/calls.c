/* The calls of the library by their names in the package: arguments that are as usual are read here, and all else is
 * left to the modules in Python. */
#include "module.h"

/* What became of reading arguments. */
enum outcome { READ, UNUSUAL };

/* Reads a number below an end. */
static enum outcome read_number(PyObject *value, uint64_t end, uint64_t *number)
{
    if (!PyLong_Check(value)) {
        return UNUSUAL;
    }
    *number = PyLong_AsUnsignedLongLong(value);
    if (*number == UINT64_MAX && PyErr_Occurred()) {
        PyErr_Clear();
        return UNUSUAL;
    }
    return *number < end ? READ : UNUSUAL;
}

/* Reads a schema, which is a number or the name of a record. */
static enum outcome read_schema(const struct native *native, PyObject *value, uint32_t *schema)
{
    uint64_t number = 0;
    if (PyUnicode_CheckExact(value)) {
        value = PyDict_GetItemWithError(native->schemas, value);
        if (value == NULL) {
            PyErr_Clear();
            return UNUSUAL;
        }
    }
    enum outcome outcome = read_number(value, UINT64_C(1) << 32, &number);
    *schema = (uint32_t)number;
    return outcome;
}

/* Reads bytes, or a text where it may be one, whose UTF-8 is kept in `held`. */
static enum outcome read_slice(PyObject *value, bool is_text, bool is_bytes, struct slice *slice, PyObject **held)
{
    if (is_text && PyUnicode_CheckExact(value)) {
        *held = PyUnicode_AsUTF8String(value);
        if (*held == NULL) {
            PyErr_Clear();
            return UNUSUAL;
        }
        value = *held;
    } else if (!is_bytes || !PyBytes_CheckExact(value)) {
        return UNUSUAL;
    }
    slice->bytes = (const uint8_t *)PyBytes_AsString(value);
    slice->length = (size_t)PyBytes_Size(value);
    return READ;
}

/* Reads a table of numbers, which are the bytes of it, in their alignment. */
static enum outcome read_table(PyObject *value, struct slice *slice)
{
    enum outcome outcome = read_slice(value, false, true, slice, NULL);
    return outcome == READ && (uintptr_t)slice->bytes % sizeof(uint64_t) == 0 ? READ : UNUSUAL;
}

/* Reads the numbers of a struct, which are the bytes of it. */
static enum outcome read_numbers(PyObject *value, size_t count, uint64_t *numbers)
{
    size_t size = count * sizeof *numbers;
    if (!PyBytes_CheckExact(value) || (size_t)PyBytes_Size(value) != size) {
        return UNUSUAL;
    }
    memcpy(numbers, PyBytes_AsString(value), size);
    return READ;
}

/* Reads an argument. What Python has checked may be bytes where only a text is usual. */
static enum outcome read_argument(const struct named_call *self, enum parameter parameter, PyObject *value,
                                  bool is_checked, struct arguments *arguments, PyObject **held)
{
    uint64_t number = 0;
    enum outcome outcome = READ;
    switch (parameter) {
    case VERSION:
        outcome = read_number(value, UINT64_C(1) << 32, &number);
        arguments->version = (uint32_t)number;
        return outcome;
    case CODE:
        outcome = read_number(value, UINT64_C(1) << 16, &number);
        arguments->code = (uint16_t)number;
        return outcome;
    case SCHEMA:
        return read_schema(self->native, value, &arguments->schema);
    case PAYLOAD_LENGTH:
        outcome = read_number(value, UINT64_C(1) << 32, &number);
        arguments->payload_length = (uint32_t)number;
        return outcome;
    case INDEX:
        outcome = read_number(value, UINT64_C(1) << 32, &number);
        arguments->index = (uint32_t)number;
        return outcome;
    case DIRECTION:
        outcome = read_number(value, UINT64_C(1) << 32, &number);
        arguments->direction = (uint32_t)number;
        return outcome;
    case TABLE:
        return read_table(value, &arguments->table);
    case NAME:
        return read_slice(value, true, is_checked, &arguments->first, held);
    case JSON:
        return read_slice(value, true, true, &arguments->first, held);
    case PAYLOAD:
    case FIRST:
    case RECORDED:
    case SET:
        return read_slice(value, false, true, &arguments->first, held);
    case SECOND:
    case REPLAYED:
    case RENAMES:
        return read_slice(value, false, true, &arguments->second, held);
    case STREAM:
        return read_slice(value, false, true, &arguments->third, held);
    case IGNORE_PAYLOADS:
        if (!PyBool_Check(value)) {
            return UNUSUAL;
        }
        arguments->ignore_payloads = value == Py_True;
        return READ;
    case REPLAY:
        return read_numbers(value, self->call->given, arguments->given);
    case NO_PARAMETER:
        break;
    }
    return UNUSUAL;
}

/* How many arguments a call takes. */
static Py_ssize_t taken(const struct call *call)
{
    Py_ssize_t count = 0;
    while (call->parameters[count] != NO_PARAMETER) {
        count += 1;
    }
    return count;
}

/* Reads the values that a call is given, which are as many as it takes. */
static enum outcome read_arguments(const struct named_call *self, PyObject *values, bool is_checked,
                                   struct arguments *arguments, PyObject **held)
{
    for (Py_ssize_t at = 0; self->call->parameters[at] != NO_PARAMETER; at += 1) {
        if (read_argument(self, self->call->parameters[at], PyTuple_GetItem(values, at), is_checked, arguments, held) !=
            READ) {
            return UNUSUAL;
        }
    }
    return READ;
}

/* What a call returns; of much it is made while other threads run. */
static int64_t returned(const struct named_call *self, struct arguments *arguments, size_t size)
{
    const struct library *library = &self->native->library;
    /* of a recording a replay reads only up to its next command, which may be far */
    if (size < LONG && (self->call->given == 0 || arguments->first.length < LONG)) {
        return self->call->make(library, arguments);
    }
    int64_t number;
    Py_BEGIN_ALLOW_THREADS
    number = self->call->make(library, arguments);
    Py_END_ALLOW_THREADS
    return number;
}

/* The bytes that a call writes; NULL with an exception, or without one if the call returned an error. */
static PyObject *written(const struct named_call *self, struct arguments *arguments, int64_t *number)
{
    _Alignas(uint64_t) uint8_t first[BYTES];
    size_t unit = self->call->unit;
    size_t size = bytes_read(self->call, arguments);
    size_t room = self->call->times * size + self->call->more;
    uint8_t *out = first;
    if (room <= BYTES / unit) {
        room = BYTES / unit;
    } else {
        out = NULL;
    }
    for (;;) {
        if (out == NULL && (out = room <= PY_SSIZE_T_MAX / unit ? PyMem_Malloc(room * unit) : NULL) == NULL) {
            return PyErr_NoMemory();
        }
        arguments->out = out;
        arguments->room = room;
        *number = returned(self, arguments, size);
        bool is_whole = *number >= 0 && (uint64_t)*number <= room;
        Py_ssize_t length = is_whole ? (Py_ssize_t)((size_t)*number * unit) : 0;
        PyObject *found = is_whole ? PyBytes_FromStringAndSize((const char *)out, length) : NULL;
        if (out != first) {
            PyMem_Free(out);
        }
        if (is_whole || *number < 0) {
            return found;
        }
        room = (size_t)*number;
        out = NULL;
    }
}

/* The numbers that a call wrote, after its result, which is taken, and after them those that it changed. */
static PyObject *with_numbers(const struct named_call *self, PyObject *result, const struct arguments *arguments)
{
    PyObject *numbers = PyTuple_New((Py_ssize_t)self->call->numbers);
    for (size_t at = 0; numbers != NULL && at < self->call->numbers; at += 1) {
        PyObject *number = PyLong_FromUnsignedLongLong(arguments->numbers[at]);
        if (number == NULL || PyTuple_SetItem(numbers, (Py_ssize_t)at, number) != 0) {
            Py_CLEAR(numbers);
        }
    }
    PyObject *found = NULL;
    if (numbers != NULL && self->call->changes) {
        size_t size = self->call->given * sizeof *arguments->given;
        PyObject *changed = PyBytes_FromStringAndSize((const char *)arguments->given, (Py_ssize_t)size);
        found = changed == NULL ? NULL : PyTuple_Pack(3, result, numbers, changed);
        Py_XDECREF(changed);
    } else if (numbers != NULL) {
        found = PyTuple_Pack(2, result, numbers);
    }
    Py_XDECREF(numbers);
    Py_DECREF(result);
    return found;
}

/* The error that a call returned, which Python raises. */
static PyObject *refused(const struct named_call *self, PyObject *given, int64_t number)
{
    PyObject *returned_number = PyLong_FromLongLong(number);
    if (returned_number == NULL) {
        return NULL;
    }
    PyObject *raised = PyObject_CallFunctionObjArgs(self->native->refused, self->place, self->name, given,
                                                    returned_number, NULL);
    Py_DECREF(returned_number);
    if (raised != NULL) {
        Py_DECREF(raised);
        PyErr_SetString(PyExc_SystemError, "an error that was not raised");
    }
    return NULL;
}

/* Makes a call with arguments that are read. */
static PyObject *make(const struct named_call *self, PyObject *given, struct arguments *arguments)
{
    int64_t number;
    PyObject *result = NULL;
    /* a call may write none of them */
    memset(arguments->numbers, 0, sizeof arguments->numbers);
    if (self->call->unit > 0) {
        result = written(self, arguments, &number);
    } else {
        number = returned(self, arguments, bytes_read(self->call, arguments));
        result = number < 0 ? NULL : PyLong_FromLongLong(number);
    }
    if (result == NULL) {
        return PyErr_Occurred() ? NULL : refused(self, given, number);
    }
    return self->call->numbers == 0 ? result : with_numbers(self, result, arguments);
}

/* Makes a call with arguments that Python checks first, and tells what is wrong with them. */
static PyObject *make_checked(const struct named_call *self, PyObject *given)
{
    struct arguments arguments;
    PyObject *held = NULL;
    PyObject *found = NULL;
    PyObject *values = PyObject_CallFunctionObjArgs(self->native->checked, self->place, self->name, given, NULL);
    if (values == NULL) {
        return NULL;
    }
    if (PyTuple_Check(values) && PyTuple_Size(values) == taken(self->call) &&
        read_arguments(self, values, true, &arguments, &held) == READ) {
        found = make(self, given, &arguments);
    } else {
        PyErr_SetString(PyExc_TypeError, "arguments that this module does not take");
    }
    Py_XDECREF(held);
    Py_DECREF(values);
    return found;
}

static PyObject *named_call_call(struct named_call *self, PyObject *given, PyObject *keywords)
{
    struct arguments arguments;
    PyObject *held = NULL;
    if ((keywords != NULL && PyDict_Size(keywords) > 0) || PyTuple_Size(given) != taken(self->call)) {
        PyErr_SetString(PyExc_TypeError, "a call takes each of its arguments by its place");
        return NULL;
    }
    bool is_read = read_arguments(self, given, false, &arguments, &held) == READ;
    PyObject *found = is_read ? make(self, given, &arguments) : NULL;
    Py_XDECREF(held);
    return is_read ? found : make_checked(self, given);
}

static int named_call_traverse(struct named_call *self, visitproc visit, void *arg)
{
    Py_VISIT(self->native);
    Py_VISIT(Py_TYPE(self));
    return 0;
}

static void named_call_dealloc(struct named_call *self)
{
    PyTypeObject *type = Py_TYPE(self);
    PyObject_GC_UnTrack(self);
    Py_XDECREF(self->native);
    Py_XDECREF(self->place);
    Py_XDECREF(self->name);
    PyObject_GC_Del(self);
    Py_DECREF(type);
}

static PyType_Slot named_call_slots[] = {
    {Py_tp_doc, "A call of the library, by its name in the package."},
    {Py_tp_new, made_by_native},
    {Py_tp_call, named_call_call},
    {Py_tp_traverse, named_call_traverse},
    {Py_tp_dealloc, named_call_dealloc},
    {0, NULL},
};

PyType_Spec named_call_spec = {
    .name = "pendratsoa._compiled.NamedCall",
    .basicsize = sizeof(struct named_call),
    .flags = Py_TPFLAGS_DEFAULT | Py_TPFLAGS_HAVE_GC,
    .slots = named_call_slots,
};
