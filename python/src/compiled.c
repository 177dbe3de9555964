/* The compiled module: all calls of the library, records and streams, without ctypes. */
#include "module.h"

void *made_of(struct native *native, const char *type)
{
    PyObject *found = PyObject_GetAttrString((PyObject *)native, type);
    if (found == NULL) {
        return NULL;
    }
    void *made = PyType_GenericAlloc((PyTypeObject *)found, 0);
    Py_DECREF(found);
    return made;
}

PyObject *made_by_native(PyTypeObject *type, PyObject *arguments, PyObject *keywords)
{
    (void)type;
    (void)arguments;
    (void)keywords;
    PyErr_SetString(PyExc_TypeError, "it is made by a Native alone");
    return NULL;
}

PyObject *instance_of(const struct native *native, PyObject *class, PyObject *values)
{
    PyObject *made = PyType_GenericAlloc((PyTypeObject *)class, 0);
    if (made != NULL && PyObject_GenericSetAttr(made, native->dict_name, values) != 0) {
        Py_CLEAR(made);
    }
    return made;
}

/* Reads the row of a field: its number, its kind, its shape, its name, its schema or -1, its enum and its wrapper. */
static int take_row(struct record *record, Py_ssize_t place, PyObject *given, Py_ssize_t schemas)
{
    struct field *field = &record->fields[place];
    struct row *row = &record->rows[place];
    unsigned long long number, kind;
    int shape;
    PyObject *enumeration, *wrapper, *name;
    if (!PyTuple_Check(given)) {
        PyErr_SetString(PyExc_TypeError, "a row must be a tuple");
        return -1;
    }
    if (!PyArg_ParseTuple(given, "KKiUnOO", &number, &kind, &shape, &name, &row->schema, &enumeration, &wrapper)) {
        return -1;
    }
    *field = (struct field){.number = number, .kind = kind, .shape = (enum shape)shape};
    Py_INCREF(name);
    row->name = name;
    PyUnicode_InternInPlace(&row->name);
    if (enumeration != Py_None) {
        Py_INCREF(enumeration);
        row->enumeration = enumeration;
        row->members = PyObject_GetAttrString(enumeration, "_value2member_map_");
    }
    if (wrapper != Py_None) {
        Py_INCREF(wrapper);
        row->wrapper = wrapper;
    }
    row->list = field->shape == REPEATED ? record->lists++ : 0;
    bool is_enum = kind == JOURNAL_FIELD_ENUM;
    bool is_message = kind == JOURNAL_FIELD_MESSAGE;
    if (shape < PLAIN || shape > MEMBER || record->lists > LISTS ||
        is_enum != (row->members != NULL && PyDict_Check(row->members)) ||
        is_message != (row->schema >= 0 && row->schema < schemas) ||
        (row->wrapper != NULL && !PyType_Check(row->wrapper))) {
        PyErr_SetString(PyExc_ValueError, "a row that this module does not know");
        return -1;
    }
    return 0;
}

/* Reads a record: its class, the code of its type or -1, what its fields are by default, and its rows. */
static int take_record(struct record *record, PyObject *given, Py_ssize_t schemas)
{
    PyObject *class, *defaults, *rows;
    if (!PyTuple_Check(given)) {
        PyErr_SetString(PyExc_TypeError, "a record must be a tuple");
        return -1;
    }
    if (!PyArg_ParseTuple(given, "OlOO", &class, &record->code, &defaults, &rows)) {
        return -1;
    }
    if (!PyType_Check(class) || !PyDict_CheckExact(defaults) || !PyTuple_CheckExact(rows)) {
        PyErr_SetString(PyExc_TypeError, "a record must be a class, a number, a dict and a tuple");
        return -1;
    }
    Py_INCREF(class);
    record->class = (PyTypeObject *)class;
    record->defaults = PyDict_Copy(defaults);
    Py_ssize_t count = PyTuple_Size(rows);
    record->fields = PyMem_Calloc((size_t)count + 1, sizeof *record->fields);
    record->rows = PyMem_Calloc((size_t)count + 1, sizeof *record->rows);
    if (record->defaults == NULL || record->fields == NULL || record->rows == NULL) {
        PyErr_NoMemory();
        return -1;
    }
    while (record->count < count) {
        record->count += 1;
        if (take_row(record, record->count - 1, PyTuple_GetItem(rows, record->count - 1), schemas) != 0) {
            return -1;
        }
    }
    return 0;
}

/* Takes the addresses of the functions, in the order of the header. */
static int take_addresses(struct native *self, PyObject *addresses)
{
    uintptr_t found[FUNCTIONS];
    if (!PyTuple_Check(addresses) || PyTuple_Size(addresses) != FUNCTIONS) {
        PyErr_Format(PyExc_TypeError, "the addresses must be a tuple of %d", FUNCTIONS);
        return -1;
    }
    for (int place = 0; place < FUNCTIONS; place += 1) {
        found[place] = (uintptr_t)PyLong_AsVoidPtr(PyTuple_GetItem(addresses, place));
        if (PyErr_Occurred()) {
            return -1;
        }
    }
    for (int place = 0; place < FUNCTIONS; place += 1) {
        point(&self->library, place, found[place]);
    }
    return 0;
}

/* Takes the records. */
static int take_records(struct native *self, PyObject *records)
{
    Py_ssize_t count = PyTuple_Size(records);
    self->records = PyMem_Calloc((size_t)count + 1, sizeof *self->records);
    if (self->records == NULL) {
        PyErr_NoMemory();
        return -1;
    }
    while (self->count < count) {
        self->count += 1;
        if (take_record(&self->records[self->count - 1], PyTuple_GetItem(records, self->count - 1), count) != 0) {
            return -1;
        }
    }
    return 0;
}

/* Takes the classes of items. */
static int take_items(struct native *self, PyObject *items)
{
    if (PyTuple_Size(items) != ITEM_CLASSES) {
        PyErr_SetString(PyExc_TypeError, "there must be three classes of items");
        return -1;
    }
    for (Py_ssize_t at = 0; at < ITEM_CLASSES; at += 1) {
        PyObject *class = PyTuple_GetItem(items, at);
        if (!PyType_Check(class)) {
            PyErr_SetString(PyExc_TypeError, "an item must have a class");
            return -1;
        }
        Py_INCREF(class);
        self->items[at] = class;
    }
    return 0;
}

/* Makes the names of attributes. */
static int make_names(struct native *self)
{
    static const char *const names[ATTRIBUTES] = {"version", "code", "payload", "requested_ack", "word", "offset"};
    self->dict_name = PyUnicode_InternFromString("__dict__");
    self->value_name = PyUnicode_InternFromString("value");
    for (int at = 0; at < ATTRIBUTES; at += 1) {
        self->attributes[at] = PyUnicode_InternFromString(names[at]);
    }
    self->nothing = PyTuple_New(0);
    return PyErr_Occurred() ? -1 : 0;
}

static int native_traverse(struct native *self, visitproc visit, void *arg)
{
    for (Py_ssize_t at = 0; at < self->count; at += 1) {
        const struct record *record = &self->records[at];
        Py_VISIT(record->class);
        Py_VISIT(record->defaults);
        for (Py_ssize_t of = 0; of < record->count; of += 1) {
            Py_VISIT(record->rows[of].enumeration);
            Py_VISIT(record->rows[of].members);
            Py_VISIT(record->rows[of].wrapper);
        }
    }
    for (int at = 0; at < ITEM_CLASSES; at += 1) {
        Py_VISIT(self->items[at]);
    }
    Py_VISIT(self->schemas);
    Py_VISIT(self->checked);
    Py_VISIT(self->refused);
    Py_VISIT(Py_TYPE(self));
    return 0;
}

static void native_dealloc(struct native *self)
{
    PyTypeObject *type = Py_TYPE(self);
    PyObject_GC_UnTrack(self);
    for (Py_ssize_t at = 0; at < self->count; at += 1) {
        struct record *record = &self->records[at];
        for (Py_ssize_t of = 0; of < record->count; of += 1) {
            Py_XDECREF(record->rows[of].name);
            Py_XDECREF(record->rows[of].enumeration);
            Py_XDECREF(record->rows[of].members);
            Py_XDECREF(record->rows[of].wrapper);
        }
        PyMem_Free(record->fields);
        PyMem_Free(record->rows);
        Py_XDECREF(record->class);
        Py_XDECREF(record->defaults);
    }
    PyMem_Free(self->records);
    for (int at = 0; at < ITEM_CLASSES; at += 1) {
        Py_XDECREF(self->items[at]);
    }
    for (int at = 0; at < ATTRIBUTES; at += 1) {
        Py_XDECREF(self->attributes[at]);
    }
    for (int at = 0; at < CODES; at += 1) {
        Py_XDECREF(self->codes[at].number);
    }
    Py_XDECREF(self->nothing);
    Py_XDECREF(self->dict_name);
    Py_XDECREF(self->value_name);
    Py_XDECREF(self->schemas);
    Py_XDECREF(self->checked);
    Py_XDECREF(self->refused);
    PyObject_GC_Del(self);
    Py_DECREF(type);
}

static PyObject *native_new(PyTypeObject *type, PyObject *arguments, PyObject *keywords)
{
    static char *names[] = {"addresses", "records", "items", "schemas", "checked", "refused", NULL};
    PyObject *addresses, *records, *items, *schemas, *checked, *refused;
    if (!PyArg_ParseTupleAndKeywords(arguments, keywords, "O!O!O!O!OO", names, &PyTuple_Type, &addresses, &PyTuple_Type,
                                     &records, &PyTuple_Type, &items, &PyDict_Type, &schemas, &checked, &refused)) {
        return NULL;
    }
    struct native *self = (struct native *)PyType_GenericAlloc(type, 0);
    if (self == NULL) {
        return NULL;
    }
    self->schemas = schemas;
    Py_INCREF(schemas);
    self->checked = checked;
    Py_INCREF(checked);
    self->refused = refused;
    Py_INCREF(refused);
    if (make_names(self) != 0 || take_addresses(self, addresses) != 0 || take_items(self, items) != 0 ||
        take_records(self, records) != 0) {
        Py_DECREF(self);
        return NULL;
    }
    return (PyObject *)self;
}

PyDoc_STRVAR(point_doc, "point(addresses)\n--\n\nTakes other addresses of the functions.");

static PyObject *native_point(struct native *self, PyObject *addresses)
{
    if (take_addresses(self, addresses) != 0) {
        return NULL;
    }
    Py_RETURN_NONE;
}

PyDoc_STRVAR(of_doc, "of(schema)\n--\n\nThe functions of the record of a schema.");

static PyObject *native_of(struct native *self, PyObject *schema)
{
    Py_ssize_t number = PyLong_AsSsize_t(schema);
    if (number == -1 && PyErr_Occurred()) {
        return NULL;
    }
    if (number < 0 || number >= self->count) {
        PyErr_SetString(PyExc_IndexError, "there is no such schema");
        return NULL;
    }
    struct record_codec *made = made_of(self, "_RecordCodec");
    if (made != NULL) {
        Py_INCREF(self);
        made->native = self;
        made->schema = number;
    }
    return (PyObject *)made;
}

PyDoc_STRVAR(call_doc, "call(place, name)\n--\n\nThe call at a place of the list, by its name in the package.");

static PyObject *native_call(struct native *self, PyObject *arguments)
{
    Py_ssize_t place;
    PyObject *name;
    if (!PyArg_ParseTuple(arguments, "nU", &place, &name)) {
        return NULL;
    }
    if (place < 0 || place >= (Py_ssize_t)(sizeof CALLS / sizeof *CALLS)) {
        PyErr_SetString(PyExc_IndexError, "there is no such call");
        return NULL;
    }
    struct named_call *made = made_of(self, "_NamedCall");
    if (made == NULL) {
        return NULL;
    }
    Py_INCREF(self);
    made->native = self;
    made->call = &CALLS[place];
    Py_INCREF(name);
    made->name = name;
    made->place = PyLong_FromSsize_t(place);
    if (made->place == NULL) {
        Py_CLEAR(made);
    }
    return (PyObject *)made;
}

PyDoc_STRVAR(pending_doc, "pending(version, limit)\n--\n\nWhat comes of a stream, of a limit or None.");

static PyObject *native_pending(struct native *self, PyObject *arguments)
{
    PyObject *version, *limit;
    if (!PyArg_ParseTuple(arguments, "O!O", &PyLong_Type, &version, &limit)) {
        return NULL;
    }
    struct pending *made = made_of(self, "_Pending");
    if (made == NULL) {
        return NULL;
    }
    Py_INCREF(self);
    made->native = self;
    if (start_pending(made, version, limit) != 0) {
        Py_CLEAR(made);
    }
    return (PyObject *)made;
}

static PyMethodDef native_methods[] = {
    {"point", (PyCFunction)native_point, METH_O, point_doc},
    {"of", (PyCFunction)native_of, METH_O, of_doc},
    {"call", (PyCFunction)native_call, METH_VARARGS, call_doc},
    {"pending", (PyCFunction)native_pending, METH_VARARGS, pending_doc},
    {NULL, NULL, 0, NULL},
};

static PyType_Slot native_slots[] = {
    {Py_tp_doc, "The library by the addresses of its functions, all records, and the classes of items."},
    {Py_tp_new, native_new},
    {Py_tp_traverse, native_traverse},
    {Py_tp_dealloc, native_dealloc},
    {Py_tp_methods, native_methods},
    {0, NULL},
};

static PyType_Spec native_spec = {
    .name = "pendratsoa._compiled.Native",
    .basicsize = sizeof(struct native),
    .flags = Py_TPFLAGS_DEFAULT | Py_TPFLAGS_HAVE_GC,
    .slots = native_slots,
};

/* Makes a type, and puts it into an object; -1 with an exception. */
static int put_type(PyObject *object, const char *name, PyType_Spec *spec)
{
    PyObject *type = PyType_FromSpec(spec);
    int failed = type == NULL ? -1 : PyObject_SetAttrString(object, name, type);
    Py_XDECREF(type);
    return failed;
}

static int executed(PyObject *module)
{
    PyObject *native = PyType_FromSpec(&native_spec);
    int failed = native == NULL ? -1 : PyObject_SetAttrString(module, "Native", native);
    failed = failed != 0 ? failed : put_type(native, "_RecordCodec", &record_codec_spec);
    failed = failed != 0 ? failed : put_type(native, "_NamedCall", &named_call_spec);
    failed = failed != 0 ? failed : put_type(native, "_Pending", &pending_spec);
    failed = failed != 0 ? failed : put_type(native, "_Items", &items_spec);
    Py_XDECREF(native);
    return failed;
}

static PyModuleDef_Slot module_slots[] = {
    {Py_mod_exec, executed},
    {0, NULL},
};

static struct PyModuleDef module = {
    PyModuleDef_HEAD_INIT,
    .m_name = "_compiled",
    .m_doc = "The calls of the library, records and streams.",
    .m_slots = module_slots,
};

PyMODINIT_FUNC PyInit__compiled(void)
{
    return PyModuleDef_Init(&module);
}
