/* What came of a stream, from which items are taken: each is made here, from the numbers that the library writes. */
#include "module.h"

/* How many bytes are left of those that were joined. */
static size_t left(const struct pending *self)
{
    return self->data == NULL ? 0 : (size_t)PyBytes_Size(self->data) - self->begin;
}

/* What is left, and what came after it; NULL with an exception. Nothing else runs meanwhile. */
static PyObject *joined_of(const struct pending *self)
{
    Py_ssize_t count = PyList_Size(self->chunks);
    size_t before = left(self);
    if (before == 0 && count == 1) {
        PyObject *chunk = PyList_GetItem(self->chunks, 0);
        Py_INCREF(chunk);
        return chunk;
    }
    if (self->chunks_size > (size_t)PY_SSIZE_T_MAX - before) {
        return PyErr_NoMemory();
    }
    PyObject *joined = PyBytes_FromStringAndSize(NULL, (Py_ssize_t)(before + self->chunks_size));
    if (joined == NULL) {
        return NULL;
    }
    char *out = PyBytes_AsString(joined);
    if (before > 0) {
        memcpy(out, PyBytes_AsString(self->data) + self->begin, before);
    }
    out += before;
    for (Py_ssize_t at = 0; at < count; at += 1) {
        PyObject *chunk = PyList_GetItem(self->chunks, at);
        size_t length = (size_t)PyBytes_Size(chunk);
        memcpy(out, PyBytes_AsString(chunk), length);
        out += length;
    }
    return joined;
}

/* Joins what came to what is left, so that each byte is joined twice at most. */
static int join(struct pending *self)
{
    PyObject *joined = joined_of(self);
    if (joined == NULL) {
        return -1;
    }
    PyObject *before = self->data;
    self->data = joined;
    self->begin = 0;
    self->chunks_size = 0;
    self->changes += 1;
    Py_XDECREF(before);
    return PyList_SetSlice(self->chunks, 0, PyList_Size(self->chunks), NULL);
}

/* Looks for an item: how many bytes are missing at least, 0 if it is whole, or an error. */
static int64_t look(struct pending *self, struct journal_item *item)
{
    const struct library *library = &self->native->library;
    const uint8_t *bytes = self->data == NULL ? NULL : (const uint8_t *)PyBytes_AsString(self->data) + self->begin;
    size_t length = left(self);
    return self->is_limited
               ? library->next_within(self->version, self->limit, bytes, length, item, JOURNAL_ITEM_NUMBERS)
               : library->next(self->version, bytes, length, item, JOURNAL_ITEM_NUMBERS);
}

/* Looks for an item, in what came after as well once that is enough. -1 with an exception if there is no memory. */
static int64_t found(struct pending *self, struct journal_item *item)
{
    int64_t missing = self->missing == 0 ? look(self, item) : (int64_t)self->missing;
    if (missing > 0 && (uint64_t)missing <= self->chunks_size) {
        if (join(self) != 0) {
            return -1;
        }
        missing = look(self, item);
    }
    self->missing = missing > 0 ? (uint64_t)missing : 0;
    return missing;
}

/* The attributes of the items of each kind, in the order of their fields, so that all of a class share their keys. */
static const struct fields {
    enum attribute attributes[ATTRIBUTES];
    size_t count;
} FIELDS[ITEM_CLASSES] = {
    [JOURNAL_ITEM_MESSAGE] = {{VERSION_NAME, CODE_NAME, PAYLOAD_NAME, ACK_NAME, WORD_NAME, OFFSET_NAME}, 6},
    [JOURNAL_ITEM_UNKNOWN_CODE] = {{VERSION_NAME, CODE_NAME, WORD_NAME, OFFSET_NAME}, 4},
    [JOURNAL_ITEM_SKIPPED] = {{VERSION_NAME, CODE_NAME, WORD_NAME, PAYLOAD_NAME, OFFSET_NAME}, 5},
};

/* The number of a code, which is kept for further items of it. */
static PyObject *code_of(struct native *native, uint64_t code)
{
    struct code *kept = &native->codes[(code ^ code >> 5) % CODES];
    if (kept->number == NULL || kept->code != code) {
        PyObject *number = PyLong_FromUnsignedLongLong(code);
        if (number == NULL) {
            return NULL;
        }
        PyObject *before = kept->number;
        *kept = (struct code){.code = code, .number = number};
        Py_XDECREF(before);
    }
    Py_INCREF(kept->number);
    return kept->number;
}

/* An attribute of the item of these numbers, which begins with these bytes. */
static PyObject *attribute_of(const struct pending *self, const struct journal_item *item, const char *bytes,
                              enum attribute attribute)
{
    PyObject *found = self->number;
    switch (attribute) {
    case CODE_NAME:
        return code_of(self->native, item->code);
    case PAYLOAD_NAME:
        return PyBytes_FromStringAndSize(bytes + item->payload, (Py_ssize_t)(item->size - item->payload));
    case ACK_NAME:
        found = item->requested_ack == 1 ? Py_True : Py_False;
        break;
    case WORD_NAME:
        return PyLong_FromUnsignedLongLong(item->word);
    case OFFSET_NAME:
        return PyLong_FromUnsignedLongLong(self->offset);
    default:
        break;
    }
    Py_INCREF(found);
    return found;
}

/* The item of these numbers. Its attributes are set one by one, as __init__ does. */
static PyObject *item_of(const struct pending *self, const struct journal_item *item)
{
    const struct native *native = self->native;
    const struct fields *fields = &FIELDS[item->kind];
    const char *bytes = PyBytes_AsString(self->data) + self->begin;
    PyTypeObject *class = (PyTypeObject *)native->items[item->kind];
    newfunc make = (newfunc)PyType_GetSlot(class, Py_tp_new);
    PyObject *made = make(class, native->nothing, NULL);
    for (size_t at = 0; made != NULL && at < fields->count; at += 1) {
        enum attribute attribute = fields->attributes[at];
        PyObject *value = attribute_of(self, item, bytes, attribute);
        if (value == NULL || PyObject_GenericSetAttr(made, native->attributes[attribute], value) != 0) {
            Py_CLEAR(made);
        }
        Py_XDECREF(value);
    }
    return made;
}

/* Takes the bytes of an item. Those that are all taken are dropped. */
static void advance(struct pending *self, uint64_t size)
{
    self->begin += size;
    self->offset += size;
    self->changes += 1;
    if (self->begin == (size_t)PyBytes_Size(self->data)) {
        self->begin = 0;
        Py_CLEAR(self->data);
    }
}

PyDoc_STRVAR(take_doc, "take()\n--\n\nThe next item, or None if not all of it came; or a number: an error of the "
                       "library, or a kind of items that is not known.");

static PyObject *take(struct pending *self, PyObject *none)
{
    (void)none;
    for (;;) {
        struct journal_item item;
        int64_t missing = found(self, &item);
        if (missing != 0) {
            if (missing < 0) {
                return PyErr_Occurred() ? NULL : PyLong_FromLongLong(missing);
            }
            Py_RETURN_NONE;
        }
        if (item.kind >= ITEM_CLASSES) {
            return PyLong_FromUnsignedLongLong(item.kind);
        }
        if (self->data == NULL || item.payload > item.size || item.size > left(self)) {
            PyErr_SetString(PyExc_SystemError, "an item that is not in the bytes");
            return NULL;
        }
        uint64_t changes = self->changes;
        /* where memory is collected, what runs meanwhile may take the last item, and drop the bytes */
        PyObject *data = self->data;
        Py_INCREF(data);
        PyObject *made = item_of(self, &item);
        Py_DECREF(data);
        if (made == NULL) {
            return NULL;
        }
        if (self->changes == changes) {
            advance(self, item.size);
            return made;
        }
        /* memory was collected, and what ran meanwhile took it */
        Py_DECREF(made);
    }
}

PyDoc_STRVAR(items_doc, "items(refuse)\n--\n\nIterates over the items, up to the first of which not all came. A number "
                        "in place of an item is given to a function, which raises its error.");

static PyObject *items(struct pending *self, PyObject *refuse)
{
    struct items *made = made_of(self->native, "_Items");
    if (made != NULL) {
        Py_INCREF(self);
        made->pending = self;
        Py_INCREF(refuse);
        made->refuse = refuse;
    }
    return (PyObject *)made;
}

PyDoc_STRVAR(feed_doc, "feed(chunk)\n--\n\nAppends bytes, which are kept.");

static PyObject *feed(struct pending *self, PyObject *chunk)
{
    if (!PyBytes_CheckExact(chunk)) {
        PyErr_SetString(PyExc_TypeError, "a chunk must be bytes");
        return NULL;
    }
    if (PyList_Append(self->chunks, chunk) != 0) {
        return NULL;
    }
    self->chunks_size += (size_t)PyBytes_Size(chunk);
    self->changes += 1;
    Py_RETURN_NONE;
}

PyDoc_STRVAR(rest_doc, "rest()\n--\n\nThe number of bytes that are in no item yet.");

static PyObject *rest(struct pending *self, PyObject *none)
{
    (void)none;
    return PyLong_FromSize_t(left(self) + self->chunks_size);
}

PyDoc_STRVAR(trailing_doc, "trailing()\n--\n\nThe bytes that are in no item yet.");

static PyObject *trailing(struct pending *self, PyObject *none)
{
    (void)none;
    return joined_of(self);
}

PyDoc_STRVAR(offset_doc, "offset()\n--\n\nThe number of bytes that items have taken.");

static PyObject *offset(struct pending *self, PyObject *none)
{
    (void)none;
    return PyLong_FromUnsignedLongLong(self->offset);
}

/* Appends bytes, from this one on, to those of a header; returns how many it then has. */
static size_t append_head(char head[HEADER_BYTES], size_t came, PyObject *bytes, size_t begin)
{
    size_t length = (size_t)PyBytes_Size(bytes) - begin;
    size_t room = HEADER_BYTES - came;
    size_t taken = length < room ? length : room;
    memcpy(head + came, PyBytes_AsString(bytes) + begin, taken);
    return came + taken;
}

PyDoc_STRVAR(head_doc, "head()\n--\n\nThe first eight bytes of what is in no item yet, or fewer if fewer came.");

static PyObject *head(struct pending *self, PyObject *none)
{
    (void)none;
    char head[HEADER_BYTES];
    size_t came = self->data == NULL ? 0 : append_head(head, 0, self->data, self->begin);
    Py_ssize_t count = PyList_Size(self->chunks);
    for (Py_ssize_t at = 0; at < count && came < sizeof head; at += 1) {
        came = append_head(head, came, PyList_GetItem(self->chunks, at), 0);
    }
    return PyBytes_FromStringAndSize(head, (Py_ssize_t)came);
}

int start_pending(struct pending *self, PyObject *version, PyObject *limit)
{
    unsigned long number = PyLong_AsUnsignedLong(version);
    unsigned long most = limit == Py_None ? 0 : PyLong_AsUnsignedLong(limit);
    if (PyErr_Occurred()) {
        return -1;
    }
    if (number > UINT32_MAX || most > UINT32_MAX) {
        PyErr_SetString(PyExc_OverflowError, "a number of more than 32 bits");
        return -1;
    }
    self->version = (uint32_t)number;
    self->limit = (uint32_t)most;
    self->is_limited = limit != Py_None;
    Py_INCREF(version);
    self->number = version;
    self->chunks = PyList_New(0);
    return self->chunks == NULL ? -1 : 0;
}

static int pending_traverse(struct pending *self, visitproc visit, void *arg)
{
    Py_VISIT(self->native);
    Py_VISIT(Py_TYPE(self));
    return 0;
}

static void pending_dealloc(struct pending *self)
{
    PyTypeObject *type = Py_TYPE(self);
    PyObject_GC_UnTrack(self);
    Py_XDECREF(self->native);
    Py_XDECREF(self->number);
    Py_XDECREF(self->data);
    Py_XDECREF(self->chunks);
    PyObject_GC_Del(self);
    Py_DECREF(type);
}

static PyMethodDef pending_methods[] = {
    {"take", (PyCFunction)take, METH_NOARGS, take_doc},
    {"items", (PyCFunction)items, METH_O, items_doc},
    {"feed", (PyCFunction)feed, METH_O, feed_doc},
    {"rest", (PyCFunction)rest, METH_NOARGS, rest_doc},
    {"trailing", (PyCFunction)trailing, METH_NOARGS, trailing_doc},
    {"offset", (PyCFunction)offset, METH_NOARGS, offset_doc},
    {"head", (PyCFunction)head, METH_NOARGS, head_doc},
    {NULL, NULL, 0, NULL},
};

static PyType_Slot pending_slots[] = {
    {Py_tp_doc, "What came of a stream and is in no item yet."},
    {Py_tp_new, made_by_native},
    {Py_tp_traverse, pending_traverse},
    {Py_tp_dealloc, pending_dealloc},
    {Py_tp_methods, pending_methods},
    {0, NULL},
};

PyType_Spec pending_spec = {
    .name = "pendratsoa._compiled.Pending",
    .basicsize = sizeof(struct pending),
    .flags = Py_TPFLAGS_DEFAULT | Py_TPFLAGS_HAVE_GC,
    .slots = pending_slots,
};

/* The next item; NULL at the end, or with an exception, after either of which the loop has ended. */
static PyObject *next_item(struct items *self)
{
    struct pending *pending = self->pending;
    if (pending == NULL) {
        return NULL;
    }
    /* what runs while memory is collected may end the loop */
    Py_INCREF(pending);
    PyObject *taken = take(pending, NULL);
    Py_DECREF(pending);
    if (taken != NULL && taken != Py_None && !PyLong_CheckExact(taken)) {
        return taken;
    }
    Py_CLEAR(self->pending);
    if (taken != NULL && taken != Py_None) {
        PyObject *raised = PyObject_CallFunctionObjArgs(self->refuse, taken, NULL);
        if (raised != NULL) {
            Py_DECREF(raised);
            PyErr_SetString(PyExc_SystemError, "an error that was not raised");
        }
    }
    Py_XDECREF(taken);
    return NULL;
}

static int items_traverse(struct items *self, visitproc visit, void *arg)
{
    Py_VISIT(self->pending);
    Py_VISIT(self->refuse);
    Py_VISIT(Py_TYPE(self));
    return 0;
}

static void items_dealloc(struct items *self)
{
    PyTypeObject *type = Py_TYPE(self);
    PyObject_GC_UnTrack(self);
    Py_XDECREF(self->pending);
    Py_XDECREF(self->refuse);
    PyObject_GC_Del(self);
    Py_DECREF(type);
}

static PyType_Slot items_slots[] = {
    {Py_tp_doc, "A loop over what came of a stream."},
    {Py_tp_new, made_by_native},
    {Py_tp_iter, PyObject_SelfIter},
    {Py_tp_iternext, next_item},
    {Py_tp_traverse, items_traverse},
    {Py_tp_dealloc, items_dealloc},
    {0, NULL},
};

PyType_Spec items_spec = {
    .name = "pendratsoa._compiled.Items",
    .basicsize = sizeof(struct items),
    .flags = Py_TPFLAGS_DEFAULT | Py_TPFLAGS_HAVE_GC,
    .slots = items_slots,
};
