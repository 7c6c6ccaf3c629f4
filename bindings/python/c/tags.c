/* SPDX-License-Identifier: Apache-2.0 OR MIT */
/* Converts texts and tags of Python to those of the library. */
#include "core.h"
#include <string.h>

/* Returns whether the text of an object isn't what a caller means: that of bytes, or of an object that has others in it. */
static bool has_no_text(PyObject *value) {
    return PyBytes_Check(value) || PyByteArray_Check(value) || PyTuple_Check(value) || PyList_Check(value) || PyDict_Check(value)
        || PyAnySet_Check(value);
}

/* Reads a str, or the text that Python prints of another object. The list `texts`, which is made if there is none, gets
 * that text and keeps it alive. */
bool text_of(PyObject *value, PyObject **texts, const uint8_t **at, size_t *len) {
    Py_ssize_t size;
    if (!PyUnicode_Check(value)) {
        if (has_no_text(value)) {
            PyErr_Format(PyExc_TypeError, "%R can't be used as a text", value);
            return false;
        }
        if (*texts == NULL) *texts = PyList_New(0);
        value = *texts != NULL ? PyObject_Str(value) : NULL;
        const int put = value != NULL ? PyList_Append(*texts, value) : -1;
        Py_XDECREF(value);
        if (put < 0) return false;
    }
    *at = (const uint8_t *)PyUnicode_AsUTF8AndSize(value, &size);
    *len = (size_t)size;
    return *at != NULL;
}

/* Reads a tag: a pair of a key and a text, or a text alone, for example "page:home". */
static bool tag_of(PyObject *item, PyObject **texts, cadence_tag *to) {
    to->keyed = PyTuple_Check(item);
    to->key = NULL;
    to->key_len = 0;
    if (!to->keyed) return text_of(item, texts, &to->text, &to->text_len);
    if (PyTuple_Size(item) != 2) {
        PyErr_Format(PyExc_TypeError, "the tag %R is not a pair of a key and a text", item);
        return false;
    }
    return text_of(PyTuple_GetItem(item, 0), texts, &to->key, &to->key_len)
        && text_of(PyTuple_GetItem(item, 1), texts, &to->text, &to->text_len);
}

/* Returns a new list of the tags of a dict, or of another object that has keys, or of a list. The list is a copy, because
 * making the text of a number may run code that changes the caller's object. */
static PyObject *items_of(PyObject *given) {
    if (PyUnicode_Check(given) || PyBytes_Check(given))
        return PyErr_Format(PyExc_TypeError, "tags are a dict or a list, as in [%R]", given);
    if (PyDict_Check(given)) return PyMapping_Items(given);
    if (PyList_Check(given) || PyTuple_Check(given)) return PySequence_List(given);
    PyObject *keys = PyUnicode_InternFromString("keys"); /* a new text each time would fill the cache of attributes */
    const bool has_keys = keys != NULL && PyObject_HasAttr(given, keys);
    Py_XDECREF(keys);
    return has_keys ? PyMapping_Items(given) : keys != NULL ? PySequence_List(given) : NULL;
}

/* Reads a str that isn't of a subclass. Returns false, perhaps with an exception, if it is none. */
static bool plain_text(PyObject *value, const uint8_t **at, size_t *len) {
    Py_ssize_t size = 0;
    *at = PyUnicode_CheckExact(value) ? (const uint8_t *)PyUnicode_AsUTF8AndSize(value, &size) : NULL;
    *len = (size_t)size;
    return *at != NULL;
}

/* Reads a tag without a reference to a text of it. Returns false, perhaps with an exception, if it isn't a str or a pair of
 * them. */
static bool plain_tag(PyObject *item, cadence_tag *to) {
    *to = (cadence_tag){ .keyed = PyTuple_CheckExact(item) };
    if (!to->keyed) return plain_text(item, &to->text, &to->text_len);
    return PyTuple_Size(item) == 2 && plain_text(PyTuple_GetItem(item, 0), &to->key, &to->key_len)
        && plain_text(PyTuple_GetItem(item, 1), &to->text, &to->text_len);
}

/* Reads the tags of a dict, a list or a tuple, of which each text is a str. No code of Python runs then, so the caller's
 * object keeps the texts alive. Returns false, perhaps with an exception, if it isn't such an object, or has more tags than
 * `small`. */
static bool plain_tags(tags_of_call *tags, PyObject *given) {
    const Py_ssize_t room = sizeof tags->small / sizeof tags->small[0];
    if (PyDict_CheckExact(given)) {
        PyObject *key, *text;
        if (PyDict_Size(given) > room) return false;
        for (Py_ssize_t next = 0; PyDict_Next(given, &next, &key, &text); tags->len++) {
            cadence_tag *const to = &tags->small[tags->len];
            to->keyed = true;
            if (!plain_text(key, &to->key, &to->key_len) || !plain_text(text, &to->text, &to->text_len)) return false;
        }
        return true;
    }
    const bool is_list = PyList_CheckExact(given);
    if (!is_list && !PyTuple_CheckExact(given)) return false;
    const Py_ssize_t len = is_list ? PyList_Size(given) : PyTuple_Size(given);
    for (; len <= room && (Py_ssize_t)tags->len < len; tags->len++) {
        const Py_ssize_t i = (Py_ssize_t)tags->len;
        if (!plain_tag(is_list ? PyList_GetItem(given, i) : PyTuple_GetItem(given, i), &tags->small[i])) return false;
    }
    return len <= room;
}

bool tags_begin(tags_of_call *tags, PyObject *given) {
    tags->at = tags->small;
    if (given == Py_None || plain_tags(tags, given)) return true;
    return !PyErr_Occurred() && tags_copy(tags, given);
}

bool tags_copy(tags_of_call *tags, PyObject *given) {
    tags->at = tags->small;
    tags->len = 0;
    if (given == Py_None) return true;
    tags->items = items_of(given);
    if (tags->items == NULL) return false;
    const size_t len = (size_t)PyList_Size(tags->items);
    if (len > sizeof tags->small / sizeof tags->small[0]) {
        tags->at = PyMem_Calloc(len, sizeof *tags->at);
        if (tags->at == NULL) return PyErr_NoMemory() != NULL;
    }
    for (; tags->len < len; tags->len++)
        if (!tag_of(PyList_GetItem(tags->items, (Py_ssize_t)tags->len), &tags->texts, &tags->at[tags->len])) return false;
    return true;
}

void tags_cut(tags_of_call *tags) {
    for (size_t i = 0; i < tags->len; i++) {
        cadence_tag *const tag = &tags->at[i];
        const uint8_t *const colon = tag->keyed || tag->text_len == 0 ? NULL : memchr(tag->text, ':', tag->text_len);
        if (colon == NULL) continue;
        const size_t len = (size_t)(colon - tag->text);
        *tag = (cadence_tag){ .key = tag->text, .key_len = len, .text = colon + 1, .text_len = tag->text_len - len - 1, .keyed = true };
    }
}

void tags_end(tags_of_call *tags) {
    if (tags->at != tags->small) PyMem_Free(tags->at);
    Py_XDECREF(tags->items);
    Py_XDECREF(tags->texts);
}
