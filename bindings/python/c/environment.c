/* SPDX-License-Identifier: Apache-2.0 OR MIT */
/* What the variables of the environment say, as functions of statsd_proved._core. */
#include "core.h"

#define TEXT(name) (const char **)&to->name, (Py_ssize_t *)&to->name##_len

/* Reads the values of the variables, which are bytes, in the order of cadence.h. Returns false if it has set an exception. */
static bool read_variables(PyObject *values, cadence_variables *to) {
    return PyArg_ParseTuple(values, "y#y#y#y#y#y#y#y#y#y#y#y#y#y#y#y#y#y#y#y#", TEXT(url), TEXT(socket), TEXT(agent_host),
                            TEXT(agent_port), TEXT(statsd_host), TEXT(statsd_port), TEXT(env), TEXT(service), TEXT(version),
                            TEXT(tags), TEXT(entity_id), TEXT(disable), TEXT(enabled), TEXT(max_size), TEXT(prefix),
                            TEXT(origin), TEXT(ipv6), TEXT(external), TEXT(cardinality), TEXT(datadog_cardinality));
}

/* Sets a VariableError, or a MemoryError. */
static PyObject *refused(uint32_t status, uint32_t variable) {
    uint8_t text[256];
    size_t len;
    if (status != CADENCE_VARIABLE || cadence_variable_text(variable, text, sizeof text, &len) != CADENCE_OK)
        return PyErr_NoMemory();
    return refused_by("statsd_proved.environment", "VariableError",
                      Py_BuildValue("(ss#)", cadence_variable_name(variable), (const char *)text, (Py_ssize_t)len));
}

/* A call of the library that writes a text that the variables say. */
typedef uint32_t text_call(const cadence_variables *variables, uint8_t *out, size_t room, size_t *len, uint32_t *variable);

/* What the system says of the control groups of the process. */
struct groups {
    const char *text;
    Py_ssize_t len;
    unsigned long long inode;
};

/* Returns the text that a call writes, or with groups that of the container, and 0, 0 and False. With neither it returns where
 * to send: the host and the port, or a path and 0, or an empty text and 0, with the number of bytes that a packet has, and
 * whether the host is looked up for addresses of IPv6 alone. */
static PyObject *said(PyObject *values, text_call *writes, const struct groups *groups) {
    cadence_variables variables;
    uint32_t variable = 0, status = CADENCE_TOO_SMALL;
    uint16_t port = 0;
    bool only_ipv6 = false;
    size_t len = 1, room = 0, capacity = 0;
    PyObject *made = NULL;
    uint8_t *text = NULL, *more;
    if (!read_variables(values, &variables)) return NULL;
    while (status == CADENCE_TOO_SMALL && (more = PyMem_Realloc(text, len)) != NULL) {
        text = more;
        room = len;
        status = writes != NULL ? writes(&variables, text, room, &len, &variable)
                 : groups != NULL
                     ? cadence_environment_container(&variables, (const uint8_t *)groups->text, (size_t)groups->len,
                                                     groups->inode, text, room, &len, &variable)
                     : cadence_destination(&variables, text, room, &len, &port, &capacity, &only_ipv6, &variable);
    }
    if (status == CADENCE_OK)
        made = Py_BuildValue("(s#inO)", (const char *)text, (Py_ssize_t)len, (int)port, (Py_ssize_t)capacity,
                             only_ipv6 ? Py_True : Py_False);
    else refused(status, variable);
    PyMem_Free(text);
    return made;
}

PyObject *destination(PyObject *module, PyObject *values) {
    (void)module;
    return said(values, NULL, NULL);
}

PyObject *environment_prefix(PyObject *module, PyObject *values) {
    (void)module;
    return said(values, cadence_environment_prefix, NULL);
}

PyObject *environment_tags(PyObject *module, PyObject *values) {
    (void)module;
    return said(values, cadence_environment_tags, NULL);
}

PyObject *environment_external(PyObject *module, PyObject *values) {
    (void)module;
    return said(values, cadence_environment_external, NULL);
}

PyObject *environment_cardinality(PyObject *module, PyObject *values) {
    cadence_variables variables;
    uint32_t cardinality = CADENCE_NO_CARDINALITY, variable = 0;
    (void)module;
    if (!read_variables(values, &variables)) return NULL;
    const uint32_t status = cadence_environment_cardinality(&variables, &cardinality, &variable);
    return status == CADENCE_OK ? PyLong_FromUnsignedLong(cardinality) : refused(status, variable);
}

PyObject *environment_container(PyObject *module, PyObject *arguments) {
    struct groups groups;
    PyObject *head = PyTuple_GetSlice(arguments, 0, 2), *values = NULL, *made = NULL;
    (void)module;
    if (head != NULL && PyArg_ParseTuple(head, "y#K", &groups.text, &groups.len, &groups.inode)
        && (values = PyTuple_GetSlice(arguments, 2, PyTuple_Size(arguments))) != NULL)
        made = said(values, NULL, &groups);
    Py_XDECREF(head);
    Py_XDECREF(values);
    return made;
}
