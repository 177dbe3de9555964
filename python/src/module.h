/*
 * What the files of the compiled module share: what it is given once, and the types that it makes.
 *
 * The library is given by the addresses of its functions, the records by what is generated of them, and the rest by
 * _fast.py. Nothing is known here of how a payload is encoded. What is unusual, as a value of a wrong type, is left to
 * the modules in Python, which say what is wrong.
 */
#ifndef MODULE_H
#define MODULE_H

/* one module for each version of CPython since */
#define Py_LIMITED_API 0x03090000
#define PY_SSIZE_T_CLEAN
#include <Python.h>

#include <stdbool.h>
#include <stdint.h>
#include <string.h>

#include "calls.h"

/* The room that is tried first: for entries, and for bytes. */
#define ENTRIES 64
#define BYTES 1024

/* From how many bytes on a call of the library lets other threads run. */
#define LONG 65536

/* How many lists a record has at most. */
#define LISTS 16

/* A field of a record: what it holds, next to what the table of fields has of it. */
struct row {
    Py_ssize_t list;    /* of a repeated field, which of the lists of its record it is */
    Py_ssize_t schema;  /* of a message, the number of its schema */
    PyObject *name;     /* the attribute, which is that of the oneof for a member */
    PyObject *enumeration; /* the class of an enum, or NULL */
    PyObject *members;  /* its members by their numbers, or NULL */
    PyObject *wrapper;  /* the class that is made for a member of a oneof, or NULL */
};

/* A record: its class, the code of its type or -1, what its fields are by default, and its fields in the order of the
 * description, what is held next to what the table has. */
struct record {
    PyTypeObject *class;
    long code;
    PyObject *defaults;
    struct field *fields;
    struct row *rows;
    Py_ssize_t count;
    Py_ssize_t lists;
};

/* The attributes of items. */
enum attribute { VERSION_NAME, CODE_NAME, PAYLOAD_NAME, ACK_NAME, WORD_NAME, OFFSET_NAME, ATTRIBUTES };

/* The classes of items, at the numbers of their kinds. */
#define ITEM_CLASSES 3

/* How many places there are for the numbers of codes: those of all commands and completions have different ones. */
#define CODES 64

/* A code, and the number that was made for it, or NULL. */
struct code {
    uint64_t code;
    PyObject *number;
};

/* How many bytes a header has. */
#define HEADER_BYTES 8

/* What the module is given. `checked` returns the arguments of a call as it takes them, or raises what is wrong with
 * them; `refused` raises the error that a call returned. */
struct native {
    PyObject_HEAD
    struct library library;
    PyObject *dict_name;
    PyObject *value_name;
    PyObject *attributes[ATTRIBUTES];
    PyObject *items[ITEM_CLASSES];
    struct code codes[CODES];
    PyObject *nothing; /* the empty tuple */
    PyObject *schemas;
    PyObject *checked;
    PyObject *refused;
    struct record *records;
    Py_ssize_t count;
};

/* The types of what a `Native` makes: a call by its name, the functions of a record, what came of a stream, and a loop
 * over that. */
extern PyType_Spec named_call_spec;
extern PyType_Spec record_codec_spec;
extern PyType_Spec pending_spec;
extern PyType_Spec items_spec;

/* An instance of the type that is this attribute of a `Native`; NULL with an exception. */
void *made_of(struct native *native, const char *type);

/* Only a `Native` makes it. */
PyObject *made_by_native(PyTypeObject *type, PyObject *arguments, PyObject *keywords);

/* The instance of a class with these attributes, which are set as __dict__ is, since versions keep them differently. */
PyObject *instance_of(const struct native *native, PyObject *class, PyObject *values);

/* The two functions of one record, and its frame. */
struct record_codec {
    PyObject_HEAD
    struct native *native;
    Py_ssize_t schema;
};

/* A call by its name in the package, and its place among all. */
struct named_call {
    PyObject_HEAD
    struct native *native;
    const struct call *call;
    PyObject *place;
    PyObject *name;
};

/* What came of a stream and is in no item yet. */
struct pending {
    PyObject_HEAD
    struct native *native;
    PyObject *number;    /* of the version */
    uint32_t version;
    uint32_t limit;
    bool is_limited;
    PyObject *data;      /* bytes, or NULL */
    size_t begin;        /* where what is in no item begins in them */
    PyObject *chunks;    /* a list of what came after them */
    size_t chunks_size;
    uint64_t missing;    /* how many bytes are missing after `data` at least; 0 if this is not known */
    uint64_t offset;     /* how many bytes items have taken */
    uint64_t changes;    /* counts them, since another thread may run where memory is collected */
};

/* A loop over what came: `refuse` raises the error of a number that is taken in place of an item. */
struct items {
    PyObject_HEAD
    struct pending *pending; /* or NULL, once it has ended */
    PyObject *refuse;
};

/* Makes a `pending` ready; -1 with an exception. */
int start_pending(struct pending *pending, PyObject *version, PyObject *limit);

#endif
