/* SPDX-License-Identifier: Apache-2.0 OR MIT */
/* Reads the arguments of a call that makes a metric. */
#include "core.h"

bool time_of(PyObject *time, bool *timed, uint64_t *to) {
    *timed = time != Py_None;
    if (!*timed) return true;
    PyObject *whole = PyFloat_Check(time) ? PyNumber_Long(time) : PyNumber_Index(time); /* without parts of a second */
    if (whole != NULL) *to = PyLong_AsUnsignedLongLong(whole);
    Py_XDECREF(whole);
    return !PyErr_Occurred();
}

bool number_of(PyObject *value, const char *what, const char *const *names, uint32_t count, uint32_t *to) {
    if (value == Py_None) return true;
    for (uint32_t i = 0; i < count && PyUnicode_Check(value); i++)
        if (PyUnicode_CompareWithASCIIString(value, names[i]) == 0) return *to = i + 1, true;
    PyErr_Format(PyExc_ValueError, "%R is no %s", value, what);
    return false;
}

bool cardinality_of(PyObject *value, uint32_t *to) {
    static const char *const names[] = { "none", "low", "orchestrator", "high" };
    return number_of(value, "cardinality (none, low, orchestrator, high)", names, 4, to);
}

/* Reads the options of a call but its tags: its rate if there is one, its container, its time, and its cardinality. Returns
 * false if it has set an exception. */
static bool read_options(call *c, PyObject *rate, PyObject *container, PyObject *time, PyObject *cardinality) {
    c->options.known = true; /* what text_of gives is UTF-8 */
    c->options.rated = rate != NULL;
    if (c->options.rated && !decimal_of(rate, false, &c->options.rate)) return false;
    c->options.contained = container != Py_None;
    if (c->options.contained && !text_of(container, &c->tags.texts, &c->options.container, &c->options.container_len))
        return false;
    return time_of(time, &c->options.timed, &c->options.time) && cardinality_of(cardinality, &c->options.cardinality);
}

bool call_begin(call *c, uint32_t kind, long form, PyObject *const *args) {
    const cadence_options none = CADENCE_NO_OPTIONS;
    c->options = none;
    c->text = NULL;
    c->values.at = c->values.small;
    c->values.small[0] = (cadence_decimal_number){ .mantissa = 0 };
    c->values.len = 0;
    c->values.type = DECIMALS;
    c->tags.at = c->tags.small;
    c->tags.len = 0;
    c->tags.items = c->tags.texts = NULL;
    c->kind = form == CHANGE ? CADENCE_CHANGE : kind;
    c->form = form;
    if (!PyUnicode_Check(args[AT_STAT])) {
        PyErr_Format(PyExc_TypeError, "the name %R is not a str", args[AT_STAT]);
        return false;
    }
    if (!text_of(args[AT_STAT], NULL, &c->key, &c->key_len)) return false;
    if (kind == CADENCE_SET && PyUnicode_Check(args[AT_VALUE])) {
        if (!text_of(args[AT_VALUE], NULL, &c->text, &c->text_len)) return false;
        c->values.len = 1;
    } else if (!values_begin(&c->values, args[AT_VALUE], kind == CADENCE_TIMER)) return false;
    if (!read_options(c, args[AT_RATE], args[AT_CONTAINER], args[AT_TIMESTAMP], args[AT_CARDINALITY])) return false;
    if (!tags_begin(&c->tags, args[AT_TAGS])) return false;
    c->options.tags = c->tags.at;
    c->options.tags_len = c->tags.len;
    return true;
}

void call_end(call *c) {
    values_end(&c->values);
    tags_end(&c->tags);
}
