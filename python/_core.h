/* What the files of the module share. It is for CPython's stable ABI of 3.9. */
#ifndef GIX_CONFIG_VALUE_CORE_H
#define GIX_CONFIG_VALUE_CORE_H

#define Py_LIMITED_API 0x03090000
#include <Python.h>
#include <string.h>

#include "gix_config_value.h"

/* A call may take this many bytes and keep other threads waiting: so many take some ten microseconds. */
enum { SHORT_TEXT = 4096 };

/* What a module has: each interpreter has its own, and so has a module that is imported again. */
typedef struct {
    PyTypeObject *name, *attribute, *color, *entries;
    PyObject *refused, *invalid_file;
    PyObject *entry, *tuple_new; /* the class of an entry, and what makes one of a tuple */
    uint64_t seed[2];            /* for the hashes of keys */
} State;

/* Returns a new reference to the object. */
static inline PyObject *counted(PyObject *object)
{
    Py_INCREF(object);
    return object;
}

/* Returns the bytes of a text, as a new object of the type `bytes` itself. */
PyObject *bytes_of(PyObject *text);

/* Returns the bytes for C, and their number; null for None, and, with an exception, for what is not `bytes`. */
const char *part_of(PyObject *bytes, size_t *length);

/* Raises an exception that was just made, unless making it failed. Always returns NULL. */
PyObject *raised(PyObject *type, PyObject *error);

/* Raises InvalidFile with this code for a status, unless there is an exception already. The name of the file may be null
 * with an exception, and is no longer the caller's. Always returns NULL. */
PyObject *refuse_file(const State *state, const char *code, gcv_status status, PyObject *file, size_t line);

/* Returns the state of the module that has made this type, or null with an exception. */
State *state_of(PyObject *type);

/* The flags of a type that is a sequence for `match`, and that cannot be changed, which older versions do not look at. */
enum { SEQUENCE = 1 << 5, IMMUTABLE = 1 << 8 };

/* The type of the entries of files, and that of their texts by their keys. */
extern PyType_Spec entries_spec, texts_spec;

/* Lets other threads run during a call that takes so many bytes, and returns what `end` takes. */
static inline PyThreadState *begin(size_t length)
{
    return length > SHORT_TEXT ? PyEval_SaveThread() : NULL;
}

static inline void end(PyThreadState *waiting)
{
    if (waiting)
        PyEval_RestoreThread(waiting);
}

/* Functions of the module. */
PyObject *file_read(PyObject *module, PyObject *args);
PyObject *real_name(PyObject *module, PyObject *name);
PyObject *variable(PyObject *module, PyObject *name);
PyObject *here_found(PyObject *module, PyObject *name);

#endif
