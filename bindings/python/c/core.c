/* SPDX-License-Identifier: Apache-2.0 OR MIT */
/* The type Packer of statsd_proved._core: the calls of cadence.h. The type Calls has the calls that make metrics with it.
 *
 * Each method first reads its arguments, which may run other Python code. Then it calls the library while it holds the
 * interpreter's lock, and no Python code runs between these calls. So threads may share a Packer, and no thread sees
 * the call of another one half done. Python holds that lock during a fork too, and glibc allows malloc in the child, so
 * the child may make calls as well. */
#include "core.h"
#include <string.h>

PyObject *object_of(const char *module, const char *name) {
    PyObject *from = PyImport_ImportModule(module);
    PyObject *text = from != NULL ? PyUnicode_InternFromString(name) : NULL; /* a new text each time would fill a cache */
    PyObject *found = text != NULL ? PyObject_GetAttr(from, text) : NULL;
    Py_XDECREF(text);
    Py_XDECREF(from);
    return found;
}

PyObject *refused_by(const char *module, const char *name, PyObject *arguments) {
    PyObject *kind = arguments != NULL ? object_of(module, name) : NULL;
    if (kind != NULL) PyErr_SetObject(kind, arguments);
    Py_XDECREF(kind);
    Py_XDECREF(arguments);
    return NULL;
}

/* Sets the StatusError of a status. */
static PyObject *refused(uint32_t status) {
    if (status == CADENCE_NO_MEMORY) return PyErr_NoMemory();
    return refused_by("statsd_proved.errors", "StatusError", Py_BuildValue("(Is)", status, cadence_status_text(status)));
}

/* Returns whether a call that keeps a line made a packet. If the status isn't CADENCE_OK, it sets an exception and returns -1. */
static int answer(packer *self, uint32_t status) {
    const uint64_t made = self->counts.made;
    if (status != CADENCE_OK) return refused(status), -1;
    cadence_counts(&self->handle, &self->counts);
    return self->counts.made != made;
}

/* Returns what `answer` returns as an object of Python. */
static PyObject *answered(int made) {
    return made < 0 ? NULL : PyBool_FromLong(made);
}

/* Makes the client, which is empty. */
static uint32_t renew(packer *self) {
    memset(&self->counts, 0, sizeof self->counts);
    return sums_open(&self->sums, &self->handle, self->capacity, self->packets);
}

/* Makes the texts of the settings, which already say whether they are strict and whether they are cleaned. */
static uint32_t make_texts(packer *self, const uint8_t *prefix, size_t prefix_len, const tags_of_call *tags) {
    cadence_settings *to = &self->settings;
    size_t room = prefix_len + 3 + (to->cleaned ? to->container_len : 0);
    for (size_t i = 0; i < tags->len; i++) room += tags->at[i].key_len + tags->at[i].text_len + 2;
    self->texts = PyMem_Malloc(room);
    if (self->texts == NULL) return CADENCE_NO_MEMORY;
    uint32_t status = cadence_prefix_text(prefix, prefix_len, to->strict, to->cleaned, self->texts, room, &to->prefix_len);
    to->prefix = self->texts;
    uint8_t *next = self->texts + to->prefix_len;
    room -= to->prefix_len;
    to->tags = next;
    if (status == CADENCE_OK)
        status = cadence_tags_text(tags->at, tags->len, to->strict, to->cleaned, next, room, &to->tags_len);
    if (status != CADENCE_OK || !to->contained) return status;
    if (to->strict) return cadence_test_text(to->container, to->container_len);
    if (!to->cleaned) return CADENCE_OK;
    next += to->tags_len;
    status = cadence_cleaned_text(to->container, to->container_len, next, room - to->tags_len, &to->container_len);
    to->container = next;
    return status;
}

/* Reads the external data and the cardinality of the settings. Returns false if it has set an exception. */
static bool read_enrichment(packer *self, PyObject *external, PyObject *cardinality) {
    cadence_settings *to = &self->settings;
    if (!cardinality_of(cardinality, &to->cardinality)) return false;
    if (external == Py_None) return true;
    if (!text_of(external, &self->kept, &to->external, &to->external_len)) return false;
    for (size_t i = 0; i < to->external_len; i++)
        if (to->external[i] == '|' || to->external[i] == '\n') {
            PyErr_Format(PyExc_ValueError, "external data have no bar and no newline, and these are %R", external);
            return false;
        }
    return true;
}

/* Makes the settings and the client. Returns false if it has set an exception. */
static bool begin(packer *self, PyObject *prefix, PyObject *container, PyObject *external, PyObject *cardinality,
                  const tags_of_call *tags) {
    const uint8_t *text;
    size_t len;
    if (!text_of(prefix, NULL, &text, &len)) return false;
    self->settings.contained = container != Py_None;
    self->kept = Py_BuildValue("[OO]", container, external);
    if (self->kept == NULL || !read_enrichment(self, external, cardinality)) return false;
    if (self->settings.contained && !text_of(container, &self->kept, &self->settings.container, &self->settings.container_len))
        return false;
    uint32_t status = make_texts(self, text, len, tags);
    if (status == CADENCE_OK) status = renew(self);
    return status == CADENCE_OK || refused(status) != NULL;
}

static int packer_init(packer *self, PyObject *args, PyObject *named) {
    static char *names[] = { "prefix", "capacity", "packets", "strict", "clean", "tags", "container", "external", "cardinality",
                             "adds_up", NULL };
    PyObject *prefix, *tags = Py_None, *container = Py_None, *external = Py_None, *cardinality = Py_None;
    Py_ssize_t capacity, packets;
    int strict = 0, clean = 0, adds_up = 0;
    if (!PyArg_ParseTupleAndKeywords(args, named, "Unn|ppOOOOp", names, &prefix, &capacity, &packets, &strict, &clean, &tags,
                                     &container, &external, &cardinality, &adds_up))
        return -1;
    if (self->texts != NULL || self->kept != NULL || capacity < 0 || packets < 0) {
        PyErr_SetString(PyExc_ValueError, "a Packer is made once, of a capacity and packets from 0 on");
        return -1;
    }
    self->capacity = (size_t)capacity;
    self->packets = (size_t)packets;
    self->settings.strict = strict;
    self->settings.cleaned = clean;
    self->sums.used = adds_up;
    self->process = process_number();
    tags_of_call defaults = { .len = 0 };
    bool made = tags_copy(&defaults, tags);
    if (made && clean) tags_cut(&defaults);
    made = made && begin(self, prefix, container, external, cardinality, &defaults);
    tags_end(&defaults);
    return made ? 0 : -1;
}

static void packer_dealloc(packer *self) {
    PyTypeObject *type = Py_TYPE((PyObject *)self);
    cadence_free(&self->handle);
    sums_free(&self->sums);
    PyMem_Free(self->texts);
    PyMem_Free(self->line);
    Py_XDECREF(self->kept);
    freefunc release = (freefunc)PyType_GetSlot(type, Py_tp_free);
    release(self);
    Py_DECREF(type);
}

static PyObject *packer_renew(packer *self, PyObject *unused) {
    (void)unused;
    self->process = process_number();
    if (!self->handle.open) Py_RETURN_NONE;
    const uint32_t status = renew(self);
    return status == CADENCE_OK ? Py_NewRef(Py_None) : refused(status);
}

static PyObject *packer_is_forked(packer *self, PyObject *unused) {
    (void)unused;
    return PyBool_FromLong(self->process != process_number());
}

/* If this is the child of a fork of which Python wasn't told, all clients start empty, as they do if it is told. Returns
 * false if it has set an exception. */
static bool follow_fork(packer *self) {
    if (self->process == process_number()) return true;
    PyObject *all = object_of("statsd_proved.process", "renew_all");
    PyObject *done = all != NULL ? PyObject_CallNoArgs(all) : NULL;
    Py_XDECREF(all);
    if (done == NULL) return false;
    Py_DECREF(done);
    if (self->process == process_number()) return true;
    done = packer_renew(self, NULL); /* it is no client's */
    Py_XDECREF(done);
    return done != NULL;
}

int packer_metric(packer *self, uint32_t kind, long form, PyObject *const *args) {
    if (self->texts == NULL) return answer(self, CADENCE_NO_CLIENT);
    if (!follow_fork(self)) return -1;
    call c;
    int made = -1;
    long long number;
    PyObject *name = self->sums.used ? sums_name(kind, form, args, &number) : NULL;
    const uint32_t status = name != NULL ? sums_number(&self->sums, &self->handle, name, number) : CADENCE_INVALID;
    if (status != CADENCE_INVALID) made = answer(self, status);
    else {
        if (call_begin(&c, kind, form, args)) {
            if (self->settings.cleaned) tags_cut(&c.tags);
            made = answer(self, keep(self, &c));
        }
        if (made >= 0 && name != NULL) sums_key(&self->sums, name, self->line, self->line_len);
        call_end(&c);
    }
    Py_XDECREF(name);
    return made;
}

static PyObject *packer_count(packer *self, PyObject *args) {
    PyObject *given[ARGUMENTS] = { NULL, NULL, NULL, Py_None, Py_None, Py_None, Py_None };
    if (!PyArg_ParseTuple(args, "OO", &given[AT_STAT], &given[AT_VALUE])) return NULL;
    return answered(packer_metric(self, CADENCE_COUNTER, PLAIN, given));
}

static PyObject *packer_event(packer *self, PyObject *const *args, Py_ssize_t count) {
    uint32_t status;
    if (!follow_fork(self)) return NULL;
    return keep_event(&self->handle, &self->settings, args, count, &status) ? answered(answer(self, status)) : NULL;
}

static PyObject *packer_check(packer *self, PyObject *const *args, Py_ssize_t count) {
    uint32_t status;
    if (!follow_fork(self)) return NULL;
    return keep_check(&self->handle, &self->settings, args, count, &status) ? answered(answer(self, status)) : NULL;
}

static PyObject *packer_line(packer *self, PyObject *line) {
    const uint8_t *at;
    size_t len;
    if (!PyUnicode_Check(line)) return PyErr_Format(PyExc_TypeError, "the line %R is not a str", line);
    if (!follow_fork(self) || !text_of(line, NULL, &at, &len)) return NULL;
    return answered(answer(self, sums_line(&self->sums, &self->handle, at, len)));
}

static PyObject *packer_flush(packer *self, PyObject *unused) {
    (void)unused;
    return answered(answer(self, sums_flush(&self->sums, &self->handle)));
}

/* Removes the oldest packet that waits, and returns it as bytes. Returns None if no packet waits. */
static PyObject *packer_take(packer *self, PyObject *unused) {
    size_t len;
    uint32_t status = cadence_next(&self->handle, NULL, 0, &len);
    (void)unused;
    if (status == CADENCE_NO_PACKET || status == CADENCE_NO_CLIENT) return Py_NewRef(Py_None);
    PyObject *packet = PyBytes_FromStringAndSize(NULL, (Py_ssize_t)len);
    if (packet == NULL) return NULL;
    cadence_next(&self->handle, (uint8_t *)PyBytes_AsString(packet), len, &len);
    cadence_sent(&self->handle);
    cadence_counts(&self->handle, &self->counts);
    return packet;
}

/* Returns the packets that are left, the held text included, in a list. The client is closed then. */
static PyObject *packer_close(packer *self, PyObject *unused) {
    PyObject *packets = PyList_New(0), *packet;
    uint32_t status = CADENCE_FULL;
    while (packets != NULL && status == CADENCE_FULL) {
        status = sums_flush(&self->sums, &self->handle);
        if (status == CADENCE_NO_MEMORY) {
            Py_DECREF(packets);
            return refused(status);
        }
        while ((packet = packer_take(self, unused)) != NULL && packet != Py_None) {
            const int put = PyList_Append(packets, packet);
            Py_DECREF(packet);
            if (put < 0) break;
        }
        if (packet != Py_None) Py_CLEAR(packets);
        else Py_DECREF(packet);
    }
    if (packets != NULL) {
        cadence_free(&self->handle);
        sums_free(&self->sums);
    }
    return packets;
}

static PyObject *packer_counts(packer *self, PyObject *unused) {
    (void)unused;
    cadence_counts(&self->handle, &self->counts);
    return Py_BuildValue("nnKKK", (Py_ssize_t)self->counts.held, (Py_ssize_t)self->counts.waiting,
                         (unsigned long long)self->counts.made, (unsigned long long)self->counts.sent,
                         (unsigned long long)self->counts.dropped);
}

static PyMethodDef methods[] = {
    { "line", (PyCFunction)packer_line, METH_O, "Keeps a line as it is, and returns whether that made a packet." },
    { "count", (PyCFunction)packer_count, METH_VARARGS, "count(stat, value): keeps a counter, as line does." },
    { "event", (PyCFunction)(void (*)(void))packer_event, METH_FASTCALL,
      "event(title, text, timestamp, hostname, key, priority, source, alert, tags, container): keeps an event, as line does." },
    { "check", (PyCFunction)(void (*)(void))packer_check, METH_FASTCALL,
      "check(name, status, timestamp, hostname, message, tags, container): keeps a service check, as line does." },
    { "flush", (PyCFunction)packer_flush, METH_NOARGS, "Makes packets of all that is held, and returns whether there was any." },
    { "take", (PyCFunction)packer_take, METH_NOARGS, "Removes and returns the oldest packet, or returns None." },
    { "close", (PyCFunction)packer_close, METH_NOARGS, "Closes the Packer, and returns the packets that are left." },
    { "renew", (PyCFunction)packer_renew, METH_NOARGS, "Drops the held text and the packets that wait, unless the Packer is closed." },
    { "is_forked", (PyCFunction)packer_is_forked, METH_NOARGS, "Whether what it holds is the parent's, of which this process is a fork." },
    { "counts", (PyCFunction)packer_counts, METH_NOARGS, "Returns held, waiting, made, sent, dropped." },
    { NULL, NULL, 0, NULL },
};

static PyType_Slot slots[] = {
    { Py_tp_doc, "Packer(prefix, capacity, packets, strict=False, clean=False, tags=None, container=None, external=None, "
                  "cardinality=None, adds_up=False): makes lines and packs them into packets." },
    { Py_tp_init, packer_init },
    { Py_tp_dealloc, packer_dealloc },
    { Py_tp_methods, methods },
    { 0, NULL },
};

static PyType_Spec spec = { "statsd_proved._core.Packer", sizeof(packer), 0, Py_TPFLAGS_DEFAULT, slots };

bool is_packer(PyObject *value) {
    return PyType_GetSlot(Py_TYPE(value), Py_tp_dealloc) == (void *)packer_dealloc;
}

/* Puts a type into the module. It takes the reference, and returns false if it has set an exception. */
static bool put(PyObject *module, const char *name, PyObject *type) {
    const bool done = type != NULL && PyModule_AddObjectRef(module, name, type) == 0;
    Py_XDECREF(type);
    return done;
}

static int fill(PyObject *module) {
    process_begin();
    if (strcmp(cadence_version(), CADENCE_VERSION) != 0) {
        PyErr_Format(PyExc_ImportError, "statsd_proved is built for version %s of libcadence_c.a, and the one in it has version %s",
                     CADENCE_VERSION, cadence_version());
        return -1;
    }
    if (!put(module, "Packer", PyType_FromSpec(&spec)) || !put(module, "Calls", type_of_calls())) return -1;
    return PyModule_AddStringConstant(module, "VERSION", CADENCE_VERSION);
}

/* From Python 3.12 on, the second slot says that an interpreter may have a lock of its own. Interpreters share no variables
 * but those of process.c. */
static PyModuleDef_Slot parts[] = { { Py_mod_exec, fill }, { 0, NULL }, { 0, NULL } };

static PyMethodDef functions[] = {
    { "destination", destination, METH_VARARGS, "destination(*values): the host and the port that the variables say, or a path and 0, and how many bytes a packet has." },
    { "environment_prefix", environment_prefix, METH_VARARGS, "environment_prefix(*values): the prefix that the variables say, 0 and 0." },
    { "environment_container", environment_container, METH_VARARGS,
      "environment_container(groups, inode, *values): the text of the default container, 0 and 0." },
    { "environment_tags", environment_tags, METH_VARARGS, "environment_tags(*values): the text of the tags that the variables say, 0 and 0." },
    { "environment_external", environment_external, METH_VARARGS,
      "environment_external(*values): the default external data that the variables say, 0 and 0." },
    { "environment_cardinality", environment_cardinality, METH_VARARGS,
      "environment_cardinality(*values): the number of the default cardinality that the variables say, or 0." },
    { NULL, NULL, 0, NULL },
};

static struct PyModuleDef module = { PyModuleDef_HEAD_INIT, "_core", "The calls of cadence.h.", 0, functions, parts, NULL, NULL, NULL };

PyMODINIT_FUNC PyInit__core(void) {
    if (Py_Version >= 0x030C0000) parts[1] = (PyModuleDef_Slot){ 3, (void *)2 };
    return PyModuleDef_Init(&module);
}
