/* SPDX-License-Identifier: Apache-2.0 OR MIT */
/* The type Calls of statsd_proved._core, from which Metrics inherits the calls that make metrics. Each of them is one function in
 * C, which calls Python only for what is seldom: for a packet, for an error, or to choose whether a call of a sample is made. */
#include "core.h"
#include <stddef.h>
#include <string.h>
#include <structmember.h>

typedef struct {
    PyObject_HEAD
    packer *packer;
    PyObject *random, *draw; /* the module, and the name of its function */
    PyObject *in_millis; /* the function of statsd_proved.metrics */
    char starts, at_once; /* whether _kept is called after a call that made no packet */
} calls;

/* What is different in the calls. */
typedef struct {
    const char *name, *value; /* that of the call, and that of its second argument */
    uint32_t kind;
    long form;
    bool has_value, has_delta; /* whether the value may be left out, and whether there is a `delta` */
} shape;

enum { AT_DELTA = ARGUMENTS, ALL }; /* the place of `delta` */

/* Returns the place of an argument that is given by name, or -1. */
static int place_of(const shape *of, PyObject *word) {
    const char *const names[ALL] = { "stat", of->value, "rate", "tags", "container", "timestamp", "cardinality", "delta" };
    Py_ssize_t len = 0;
    const char *const text = PyUnicode_AsUTF8AndSize(word, &len);
    for (int i = 0; text != NULL && i < (of->has_delta ? ALL : ARGUMENTS); i++)
        if (names[i][0] == text[0] && strlen(names[i]) == (size_t)len && memcmp(names[i], text, (size_t)len) == 0) return i;
    PyErr_Clear();
    return -1;
}

/* Sets the TypeError of an argument that the call doesn't take, or that is given twice. */
static bool unfit(const shape *of, const char *why, PyObject *word) {
    PyErr_Format(PyExc_TypeError, "Metrics.%s() got %s argument '%U'", of->name, why, word);
    return false;
}

/* Sets the TypeError of arguments that are missing. */
static bool lacks(const shape *of, bool stat, bool value) {
    PyErr_Format(PyExc_TypeError, "Metrics.%s() missing %d required positional argument%s: %s%s%s%s%s", of->name, stat + value,
                 stat && value ? "s" : "", stat ? "'stat'" : "", stat && value ? " and " : "", value ? "'" : "",
                 value ? of->value : "", value ? "'" : "");
    return false;
}

/* Puts the arguments of a call into their places. Those that are not given are null, but None if that is what they are by
 * default. Returns false if it has set a TypeError. */
static bool bind(const shape *of, PyObject **to, PyObject *const *args, Py_ssize_t count, PyObject *words) {
    static const int places[] = { AT_STAT, AT_VALUE, AT_RATE, AT_DELTA };
    const Py_ssize_t most = of->has_delta ? 4 : 3, named = words != NULL ? PyTuple_Size(words) : 0;
    if (count > most) {
        PyErr_Format(PyExc_TypeError, "Metrics.%s() takes from %d to %zd positional arguments but %zd were given", of->name,
                     of->has_value ? 2 : 3, most + 1, count + 1);
        return false;
    }
    for (int i = 0; i < ALL; i++) to[i] = NULL;
    for (Py_ssize_t i = 0; i < count; i++) to[places[i]] = args[i];
    for (Py_ssize_t i = 0; i < named; i++) {
        PyObject *const word = PyTuple_GetItem(words, i);
        const int place = place_of(of, word);
        if (place < 0) return unfit(of, "an unexpected keyword", word);
        if (to[place] != NULL) return unfit(of, "multiple values for", word);
        to[place] = args[count + i];
    }
    const bool lacks_stat = to[AT_STAT] == NULL, lacks_value = to[AT_VALUE] == NULL && !of->has_value;
    if (lacks_stat || lacks_value) return lacks(of, lacks_stat, lacks_value);
    for (int i = AT_TAGS; i <= AT_CARDINALITY; i++)
        if (to[i] == NULL) to[i] = Py_None;
    return true;
}

/* Chooses whether a call of a sample is made. Returns whether it is, or -1 if it has set an exception. A rate of 1 or more is set
 * to null, because the line doesn't have it. */
static int is_chosen(calls *self, PyObject **rate) {
    if (*rate == NULL) return 1;
    PyObject *one = PyLong_FromLong(1);
    const int below = one != NULL ? PyObject_RichCompareBool(*rate, one, Py_LT) : -1;
    Py_XDECREF(one);
    if (below == 0) *rate = NULL;
    if (below <= 0) return below == 0 ? 1 : -1;
    PyObject *draw = PyObject_CallMethodObjArgs(self->random, self->draw, NULL);
    const int refused = draw != NULL ? PyObject_RichCompareBool(draw, *rate, Py_GE) : -1;
    Py_XDECREF(draw);
    return refused < 0 ? -1 : !refused;
}

/* Calls a method of Python of the client. */
static PyObject *told(calls *self, const char *method, PyObject *what) {
    PyObject *name = PyUnicode_InternFromString(method);
    PyObject *done = name != NULL ? PyObject_CallMethodObjArgs((PyObject *)self, name, what, NULL) : NULL;
    Py_XDECREF(name);
    return done;
}

/* Gives the error of a call that kept no line to the client, which says whether the call raises it. */
static PyObject *failed(calls *self) {
    PyObject *kind, *fault, *trace;
    if (!PyErr_ExceptionMatches(PyExc_Exception)) return NULL;
    PyErr_Fetch(&kind, &fault, &trace);
    PyErr_NormalizeException(&kind, &fault, &trace);
    if (trace != NULL) PyException_SetTraceback(fault, trace);
    PyObject *done = told(self, "_failed", fault);
    Py_XDECREF(kind);
    Py_XDECREF(fault);
    Py_XDECREF(trace);
    return done;
}

/* Makes a call whose arguments are in their places. A packer is not freed while one of its calls runs other Python code. */
static PyObject *made(calls *self, const shape *of, PyObject **given) {
    packer *const to = self->packer;
    if (to == NULL) {
        PyErr_SetString(PyExc_AttributeError, "the constructor of the client was not called");
        return NULL;
    }
    Py_INCREF((PyObject *)to);
    const int chosen = is_chosen(self, &given[AT_RATE]);
    const int packet = chosen > 0 ? packer_metric(to, of->kind, of->form, given) : chosen;
    Py_DECREF((PyObject *)to);
    if (packet < 0) return failed(self);
    return chosen > 0 && (packet > 0 || self->starts || self->at_once) ? told(self, "_kept", packet > 0 ? Py_True : Py_False)
                                                                       : Py_NewRef(Py_None);
}

/* Makes a call with another value, to which it takes the reference, or which is null if making it has set an exception. */
static PyObject *made_of(calls *self, const shape *of, PyObject **given, PyObject *value) {
    if (value == NULL) return failed(self);
    given[AT_VALUE] = value;
    PyObject *done = made(self, of, given);
    Py_DECREF(value);
    return done;
}

#define CALL(call) static PyObject *call(calls *self, PyObject *const *args, Py_ssize_t count, PyObject *words)

/* A call whose second argument is given. */
#define PLAIN_CALL(call, value, kind)                                              \
    CALL(call) {                                                                   \
        static const shape of = { #call, value, kind, PLAIN, false, false };       \
        PyObject *given[ALL];                                                      \
        return bind(&of, given, args, count, words) ? made(self, &of, given) : NULL; \
    }

PLAIN_CALL(set, "value", CADENCE_SET)
PLAIN_CALL(histogram, "value", CADENCE_HISTOGRAM)
PLAIN_CALL(distribution, "value", CADENCE_DISTRIBUTION)

/* A call whose second argument is 1 if it is left out. */
#define ONE_CALL(call, value, kind)                                                       \
    CALL(call) {                                                                          \
        static const shape of = { #call, value, kind, PLAIN, true, false };               \
        PyObject *given[ALL];                                                             \
        if (!bind(&of, given, args, count, words)) return NULL;                           \
        if (given[AT_VALUE] == NULL) return made_of(self, &of, given, PyLong_FromLong(1));   \
        return made(self, &of, given);                                                    \
    }

ONE_CALL(incr, "count", CADENCE_COUNTER)
ONE_CALL(meter, "value", CADENCE_METER)

CALL(decr) {
    static const shape of = { "decr", "count", CADENCE_COUNTER, PLAIN, true, false };
    PyObject *given[ALL];
    if (!bind(&of, given, args, count, words)) return NULL;
    return made_of(self, &of, given, given[AT_VALUE] == NULL ? PyLong_FromLong(-1) : PyNumber_Negative(given[AT_VALUE]));
}

CALL(gauge) {
    static const shape level = { "gauge", "value", CADENCE_GAUGE, LEVEL, false, true };
    static const shape change = { "gauge", "value", CADENCE_GAUGE, CHANGE, false, true };
    PyObject *given[ALL];
    if (!bind(&level, given, args, count, words)) return NULL;
    const int changes = given[AT_DELTA] != NULL ? PyObject_IsTrue(given[AT_DELTA]) : 0;
    return changes < 0 ? failed(self) : made(self, changes ? &change : &level, given);
}

CALL(timing) {
    static const shape of = { "timing", "delta", CADENCE_TIMER, PLAIN, false, false };
    PyObject *given[ALL];
    if (!bind(&of, given, args, count, words)) return NULL;
    PyObject *const delta = given[AT_VALUE];
    if (PyFloat_CheckExact(delta) || PyLong_CheckExact(delta) || self->in_millis == NULL) return made(self, &of, given);
    return made_of(self, &of, given, PyObject_CallFunctionObjArgs(self->in_millis, delta, NULL));
}

static int calls_init(calls *self, PyObject *args, PyObject *named) {
    static char *names[] = { "packer", NULL };
    PyObject *given;
    if (!PyArg_ParseTupleAndKeywords(args, named, "O", names, &given)) return -1;
    if (!is_packer(given)) return PyErr_Format(PyExc_TypeError, "%R is no Packer", given), -1;
    packer *const before = self->packer;
    if (self->random == NULL) self->random = PyImport_ImportModule("random");
    if (self->draw == NULL) self->draw = PyUnicode_InternFromString("random");
    if (self->in_millis == NULL) self->in_millis = object_of("statsd_proved.metrics", "in_millis");
    if (self->random == NULL || self->draw == NULL || self->in_millis == NULL) return -1;
    self->packer = (packer *)Py_NewRef(given);
    Py_XDECREF((PyObject *)before);
    return 0;
}

static void calls_dealloc(calls *self) {
    PyTypeObject *type = Py_TYPE((PyObject *)self);
    Py_XDECREF((PyObject *)self->packer);
    Py_XDECREF(self->random);
    Py_XDECREF(self->draw);
    Py_XDECREF(self->in_millis);
    freefunc release = (freefunc)PyType_GetSlot(type, Py_tp_free);
    release(self);
    Py_DECREF(type);
}

#define REST "rate=1, *, tags=None, container=None, timestamp=None, cardinality=None)\n--\n\n"
#define METHOD(call, start, says) \
    { #call, (PyCFunction)(void (*)(void))call, METH_FASTCALL | METH_KEYWORDS, #call "($self, stat, " start REST says }

static PyMethodDef methods[] = {
    METHOD(incr, "count=1, ", "Adds `count` to a counter."),
    METHOD(decr, "count=1, ", "Subtracts `count` from a counter."),
    { "gauge", (PyCFunction)(void (*)(void))gauge, METH_FASTCALL | METH_KEYWORDS,
      "gauge($self, stat, value, rate=1, delta=False, *, tags=None, container=None, timestamp=None, cardinality=None)\n--\n\n"
      "Sets a gauge, or changes it by the value if `delta` is set. A gauge that is set to a value below 0 is set to\n"
      "0 first, in the same packet and without the rate, because a server reads a value with a sign as a change." },
    METHOD(set, "value, ",
           "Adds a value, which may be a text, to a set. A text that is empty, or has a colon, a bar or a newline, is refused,\n"
           "because each of these would end it in the line."),
    METHOD(timing, "delta, ",
           "Sends a time: a number of milliseconds, or a timedelta. A float is rounded to six places, if the result fits.\n"
           "A list makes one line."),
    METHOD(histogram, "value, ", "Sends a value for a histogram. A list makes one line."),
    METHOD(distribution, "value, ", "Sends a value for a distribution. A list makes one line."),
    METHOD(meter, "value=1, ", "Sends a number of events for a meter."),
    { NULL, NULL, 0, NULL },
};

static PyMemberDef members[] = {
    { "_starts", T_BOOL, offsetof(calls, starts), 0, NULL },
    { "_at_once", T_BOOL, offsetof(calls, at_once), 0, NULL },
    { NULL, 0, 0, 0, NULL },
};

static PyType_Slot slots[] = {
    { Py_tp_doc, "Calls(packer): makes the lines of metrics and keeps them in a Packer. After a call that made a packet, and\n"
                 "after each one if `_starts` or `_at_once` is set, it calls `_kept`, and after one that kept no line `_failed`." },
    { Py_tp_init, calls_init },
    { Py_tp_dealloc, calls_dealloc },
    { Py_tp_methods, methods },
    { Py_tp_members, members },
    { 0, NULL },
};

static PyType_Spec spec = { "statsd_proved._core.Calls", sizeof(calls), 0, Py_TPFLAGS_DEFAULT | Py_TPFLAGS_BASETYPE, slots };

PyObject *type_of_calls(void) {
    return PyType_FromSpec(&spec);
}
