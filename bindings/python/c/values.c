/* SPDX-License-Identifier: Apache-2.0 OR MIT */
/* Converts numbers of Python to those of the library. */
#include "core.h"
#include <math.h>
#include <string.h>

static bool does_not_fit(PyObject *value) {
    PyErr_Format(PyExc_ValueError, "%R is out of range: it has to be finite, and its digits have to fit 63 bits", value);
    return false;
}

/* Reads a float. Milliseconds are rounded to six places. */
static bool decimal_of_float(PyObject *value, bool in_millis, cadence_decimal_number *to) {
    const double number = PyFloat_AsDouble(value);
    const uint32_t status = in_millis ? cadence_rounded_of_double(number, to) : cadence_decimal_of_double(number, to);
    return status == CADENCE_OK || does_not_fit(value);
}

static bool decimal_of_whole(PyObject *value, cadence_decimal_number *to) {
    int overflow;
    to->mantissa = PyLong_AsLongLongAndOverflow(value, &overflow);
    to->places = 0;
    if (overflow != 0) return does_not_fit(value);
    return to->mantissa != -1 || !PyErr_Occurred();
}

/* Stores the number of a text, if its digits fit 63 bits. */
static bool decimal_of_digits(const char *text, size_t len, PyObject *value, cadence_decimal_number *to) {
    decimal_of_python number;
    if (!decimal_of_text(text, len, &number) || number.digits > (uint64_t)INT64_MAX + number.below) return does_not_fit(value);
    to->mantissa = (int64_t)(number.below ? 0 - number.digits : number.digits);
    to->places = number.places;
    return true;
}

/* Reads a number of another type: by its __index__ if it has one that works, by its text if that is a number, as a Decimal's is, and
 * otherwise by its __float__. */
static bool decimal_of_other(PyObject *value, bool in_millis, cadence_decimal_number *to) {
    if (!PyNumber_Check(value)) {
        PyErr_Format(PyExc_TypeError, "%R is not a number", value);
        return false;
    }
    PyObject *made = PyIndex_Check(value) ? PyNumber_Index(value) : NULL;
    const bool whole = made != NULL;
    if (!whole && PyErr_Occurred()) {
        if (!PyErr_ExceptionMatches(PyExc_TypeError)) return false;
        PyErr_Clear(); /* an array of one float has an __index__ that fails */
    }
    if (!whole) made = PyObject_Str(value);
    Py_ssize_t len = 0;
    const char *text = whole || made == NULL ? "" : PyUnicode_AsUTF8AndSize(made, &len);
    bool fits = false;
    if (whole) fits = made != NULL && decimal_of_whole(made, to);
    else if (text != NULL && len != 0 && strspn(text, "0123456789+-.Ee") == (size_t)len) fits = decimal_of_digits(text, (size_t)len, value, to);
    else if (made != NULL && text != NULL) {
        PyObject *number = PyNumber_Float(value);
        fits = number != NULL && decimal_of_float(number, in_millis, to);
        Py_XDECREF(number);
    }
    Py_XDECREF(made);
    return fits;
}

bool decimal_of(PyObject *value, bool in_millis, cadence_decimal_number *to) {
    if (PyLong_Check(value)) return decimal_of_whole(value, to);
    if (PyFloat_Check(value)) return decimal_of_float(value, in_millis, to);
    return decimal_of_other(value, in_millis, to);
}

/* Reads a whole number that may have 64 bits. Returns false, perhaps with an exception, if it isn't one. */
static bool large_of(PyObject *value, uint64_t *to) {
    const bool is_index = PyIndex_Check(value);
    PyObject *made = is_index ? PyNumber_Index(value) : PyObject_Str(value);
    Py_ssize_t len = 0;
    const char *text = is_index || made == NULL ? NULL : PyUnicode_AsUTF8AndSize(made, &len);
    decimal_of_python number;
    bool is_large = false;
    if (is_index && made != NULL) {
        *to = PyLong_AsUnsignedLongLong(made);
        is_large = !PyErr_Occurred();
    } else if (text != NULL && decimal_of_text(text, (size_t)len, &number) && !number.below && number.places == 0) {
        *to = number.digits;
        is_large = true;
    }
    Py_XDECREF(made);
    return is_large;
}

/* Reads a float. The library prints it, but one that is very small is read here, so that it is known whether it is 0. */
static bool one_float(values_of_call *values, PyObject *value, bool in_millis) {
    const double number = PyFloat_AsDouble(value), size = fabs(number);
    if (!isfinite(number)) return does_not_fit(value);
    if (size != 0 && size < 1e-6) return decimal_of_float(value, in_millis, values->at);
    values->type = FLOAT;
    values->number = number;
    return true;
}

/* Reads one value. A whole number may have up to 64 bits. */
static bool one_value(values_of_call *values, PyObject *value, bool in_millis) {
    const bool is_whole = PyLong_Check(value);
    values->len = 1;
    if (!is_whole && PyFloat_Check(value)) return one_float(values, value, in_millis);
    if (is_whole) values->type = WHOLE;
    if (is_whole ? decimal_of_whole(value, values->at) : decimal_of_other(value, in_millis, values->at)) return true;
    if (!PyErr_ExceptionMatches(PyExc_ValueError)) return false;
    PyErr_Clear();
    values->type = LARGE;
    if (large_of(value, &values->large)) return true;
    PyErr_Clear();
    if (!is_whole) return does_not_fit(value);
    PyErr_Format(PyExc_OverflowError, "%R is below -2**63 or above 2**64 - 1", value);
    return false;
}

/* Reads the values of a tuple, to which no other code has a reference. There has to be one, because no server reads a
 * metric without a value. */
static bool each_value(values_of_call *values, PyObject *tuple, bool in_millis) {
    const size_t len = (size_t)PyTuple_Size(tuple);
    if (len == 0) {
        PyErr_SetString(PyExc_ValueError, "the list of values is empty");
        return false;
    }
    if (len > sizeof values->small / sizeof values->small[0]) {
        values->at = PyMem_Calloc(len, sizeof values->small[0]);
        if (values->at == NULL) return PyErr_NoMemory() != NULL;
    }
    for (; values->len < len; values->len++) {
        PyObject *value = PyTuple_GetItem(tuple, (Py_ssize_t)values->len);
        if (!decimal_of(value, in_millis, &values->at[values->len])) return false;
    }
    return true;
}

/* Returns whether an object has several values: a sequence that is neither a text nor bytes nor a number, as an array
 * without a dimension is one. */
static bool is_several(PyObject *value) {
    if (PyLong_Check(value) || PyFloat_Check(value) || PyUnicode_Check(value) || PyBytes_Check(value)) return false;
    if (!PySequence_Check(value) || PyByteArray_Check(value)) return false;
    if (!PyIndex_Check(value) || PySequence_Size(value) >= 0) return true;
    PyErr_Clear();
    return false;
}

bool values_begin(values_of_call *values, PyObject *value, bool in_millis) {
    if (PyLong_CheckExact(value) || PyFloat_CheckExact(value) || !is_several(value)) return one_value(values, value, in_millis);
    PyObject *tuple = PySequence_Tuple(value);
    if (tuple == NULL) return false;
    const bool all = each_value(values, tuple, in_millis);
    Py_DECREF(tuple);
    return all;
}

void values_end(values_of_call *values) {
    if (values->at != values->small) PyMem_Free(values->at);
}
