/* SPDX-License-Identifier: Apache-2.0 OR MIT */
/* The sums of a Packer, which add lines up before its client keeps them, if they are used. */
#include "core.h"

enum { CONTEXTS = 4096, LONGEST = 512 }; /* how many contexts of each kind are held, and how many bytes of a line */

/* Opens the client, and the sums if they are used. A flush of sums may make more packets than may wait, and drops none. */
uint32_t sums_open(sums_of_packer *self, cadence_handle *handle, size_t capacity, size_t packets) {
    const uint32_t status = cadence_open(handle, capacity, packets, self->used ? CADENCE_REFUSE : CADENCE_DROP_OLDEST);
    Py_CLEAR(self->keys);
    return status != CADENCE_OK || !self->used ? status : cadence_open_sums(&self->sums, CONTEXTS, LONGEST, false);
}

uint32_t sums_line(sums_of_packer *self, cadence_handle *handle, const uint8_t *line, size_t len) {
    return self->used ? cadence_add_line(&self->sums, handle, line, len) : cadence_line(handle, line, len);
}

/* Returns whether a tag is a str, or a pair of them. Other objects may be equal and have different texts. */
static bool is_plain(PyObject *item) {
    if (PyUnicode_CheckExact(item)) return true;
    return PyTuple_CheckExact(item) && PyTuple_Size(item) == 2 && PyUnicode_CheckExact(PyTuple_GetItem(item, 0))
        && PyUnicode_CheckExact(PyTuple_GetItem(item, 1));
}

/* Returns the tags of a call as a tuple, or null, perhaps with an exception, if they aren't plain. */
static PyObject *plain_tags(PyObject *tags) {
    PyObject *items = tags == Py_None ? PyTuple_New(0) : PyDict_CheckExact(tags) ? PyDict_Items(tags) : Py_NewRef(tags);
    const bool is_list = items != NULL && (PyList_CheckExact(items) || PyTuple_CheckExact(items));
    PyObject *plain = is_list ? PySequence_Tuple(items) : NULL;
    Py_XDECREF(items);
    for (Py_ssize_t i = 0; plain != NULL && i < PyTuple_Size(plain); i++)
        if (!is_plain(PyTuple_GetItem(plain, i))) Py_CLEAR(plain);
    return plain;
}

/* Returns the name under which the key of a call is stored, or null if its line has to be made: it raises no counter and
 * sets no gauge to a whole number, or it has a rate, a time or texts that are no str. */
PyObject *sums_name(uint32_t kind, long form, PyObject *const *args, long long *number) {
    int over = 0;
    if (!PyLong_CheckExact(args[AT_VALUE]) || !PyUnicode_CheckExact(args[AT_STAT])) return NULL;
    if (args[AT_RATE] != NULL || args[AT_TIMESTAMP] != Py_None) return NULL;
    for (int i = AT_CONTAINER; i <= AT_CARDINALITY; i += AT_CARDINALITY - AT_CONTAINER)
        if (args[i] != Py_None && !PyUnicode_CheckExact(args[i])) return NULL;
    *number = PyLong_AsLongLongAndOverflow(args[AT_VALUE], &over);
    if (over != 0 || (kind != CADENCE_COUNTER && (kind != CADENCE_GAUGE || form == CHANGE || *number < 0))) return NULL;
    PyObject *tags = plain_tags(args[AT_TAGS]), *named = PyLong_FromUnsignedLong(kind);
    PyObject *name = tags != NULL && named != NULL
        ? PyTuple_Pack(5, named, args[AT_STAT], tags, args[AT_CONTAINER], args[AT_CARDINALITY])
        : NULL;
    Py_XDECREF(named);
    Py_XDECREF(tags);
    if (name == NULL) PyErr_Clear();
    return name;
}

/* Adds a number up by the key of this name. Returns CADENCE_INVALID if there is no such key. */
uint32_t sums_number(sums_of_packer *self, cadence_handle *handle, PyObject *name, long long number) {
    PyObject *key = self->keys != NULL ? PyDict_GetItemWithError(self->keys, name) : NULL;
    if (key == NULL) {
        PyErr_Clear();
        return CADENCE_INVALID;
    }
    return cadence_add_number(&self->sums, handle, PyLong_AsSize_t(key), number);
}

/* Makes a key of a line, and stores it under a name. Without room for it the line is made at each call. */
void sums_key(sums_of_packer *self, PyObject *name, const uint8_t *line, size_t len) {
    size_t number;
    if (self->keys == NULL) self->keys = PyDict_New();
    if (self->keys == NULL || PyDict_Size(self->keys) == CONTEXTS) {
        PyErr_Clear();
        return;
    }
    if (cadence_make_key(&self->sums, line, len, &number) != CADENCE_OK) return;
    PyObject *key = PyLong_FromSize_t(number);
    if (key == NULL || PyDict_SetItem(self->keys, name, key) < 0) PyErr_Clear();
    Py_XDECREF(key);
}

void sums_free(sums_of_packer *self) {
    cadence_free_sums(&self->sums);
    Py_CLEAR(self->keys);
}

uint32_t sums_flush(sums_of_packer *self, cadence_handle *handle) {
    const uint32_t status = self->used ? cadence_flush_sums(&self->sums, handle) : CADENCE_OK;
    return status == CADENCE_OK ? cadence_flush(handle) : status;
}
