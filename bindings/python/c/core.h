/* SPDX-License-Identifier: Apache-2.0 OR MIT */
/* What the files of the extension module share. */
#ifndef CORE_H
#define CORE_H

#define PY_SSIZE_T_CLEAN
#define Py_LIMITED_API 0x030B0000
#include <Python.h>
#include <cadence.h>

/* The values of a call: one decimal or several; or one whole number, which is the mantissa of the decimal; or one of 64 bits;
 * or one float. */
typedef struct {
    cadence_decimal_number small[8], *at;
    size_t len;
    enum { DECIMALS, WHOLE, LARGE, FLOAT } type;
    uint64_t large;
    double number;
} values_of_call;

/* Tags, and the lists of the Python objects that have to live as long as the tags. */
typedef struct {
    cadence_tag small[16], *at;
    size_t len;
    PyObject *items, *texts;
} tags_of_call;

/* A decimal of Python: its digits as a whole number, which is divided by 10 to the power of places, and whether it is below 0. */
typedef struct {
    uint64_t digits;
    uint8_t places;
    bool below;
} decimal_of_python;

/* Reads the text of a decimal, rounded to 30 places as Python rounds halves up, without zeros at its end. Returns false if it is
 * no number, or if its digits don't fit 64 bits. */
bool decimal_of_text(const char *at, size_t len, decimal_of_python *to);

/* Each of these returns false if it has set an exception. The structs have to be empty at first, and values_end and tags_end
 * have to be called in any case. No code of Python may run between tags_begin and the last use of the tags, because some of
 * their texts are kept alive by the caller's object alone; those of tags_copy are kept alive by the struct. */
bool decimal_of(PyObject *value, bool in_millis, cadence_decimal_number *to);
bool values_begin(values_of_call *values, PyObject *value, bool in_millis);
void values_end(values_of_call *values);
bool text_of(PyObject *value, PyObject **texts, const uint8_t **at, size_t *len);
bool time_of(PyObject *time, bool *timed, uint64_t *to);
/* Reads the name of a number, of which the first one is 1, or None, which is 0. */
bool number_of(PyObject *value, const char *what, const char *const *names, uint32_t count, uint32_t *to);
bool cardinality_of(PyObject *value, uint32_t *to);
bool tags_begin(tags_of_call *tags, PyObject *given);
bool tags_copy(tags_of_call *tags, PyObject *given);
/* Cuts each tag that is a text at its first colon, as "page:home", into a key and a text. */
void tags_cut(tags_of_call *tags);
void tags_end(tags_of_call *tags);

/* The arguments of a call that makes a metric. */
typedef struct {
    values_of_call values;
    tags_of_call tags;
    cadence_options options;
    const uint8_t *key, *text;
    size_t key_len, text_len;
    uint32_t kind;
    long form;
} call;

/* The places of the arguments of a call that makes a metric. A rate that isn't given is null, and each of the last four is
 * None then. */
enum { AT_STAT, AT_VALUE, AT_RATE, AT_TAGS, AT_CONTAINER, AT_TIMESTAMP, AT_CARDINALITY, ARGUMENTS };

/* Reads the arguments of a call. Returns false if it has set an exception. call_end has to be called in any case. */
bool call_begin(call *c, uint32_t kind, long form, PyObject *const *args);
void call_end(call *c);


/* events.c: keep the line of an event or of a service check of these arguments, and set the status. Return false if they have
 * set an exception. */
bool keep_event(cadence_handle *handle, const cadence_settings *settings, PyObject *const *args, Py_ssize_t count, uint32_t *status);
bool keep_check(cadence_handle *handle, const cadence_settings *settings, PyObject *const *args, Py_ssize_t count, uint32_t *status);

/* Returns what a module of the package has under this name. Each interpreter of the process has objects of its own. */
PyObject *object_of(const char *module, const char *name);

/* Sets an error of a class of the package with these arguments, to which it takes the reference, and returns null. */
PyObject *refused_by(const char *module, const char *name, PyObject *arguments);

/* The functions of the module that read variables of the environment. */
PyObject *destination(PyObject *module, PyObject *values);
PyObject *environment_prefix(PyObject *module, PyObject *values);
PyObject *environment_tags(PyObject *module, PyObject *values);
PyObject *environment_external(PyObject *module, PyObject *values);
PyObject *environment_cardinality(PyObject *module, PyObject *values);
PyObject *environment_container(PyObject *module, PyObject *arguments);

/* process.c: the number of this process, which differs from that of each process of which it is a fork, and what has to be
 * called once before. */
void process_begin(void);
uint64_t process_number(void);

/* The forms of a call: a value, a change of a gauge, the value of a gauge. */
enum { PLAIN, CHANGE, LEVEL };

/* sums.c */
typedef struct {
    cadence_sums sums;
    PyObject *keys; /* the numbers of the keys by their names, or null */
    bool used;
} sums_of_packer;

uint32_t sums_open(sums_of_packer *self, cadence_handle *handle, size_t capacity, size_t packets);
uint32_t sums_line(sums_of_packer *self, cadence_handle *handle, const uint8_t *line, size_t len);
PyObject *sums_name(uint32_t kind, long form, PyObject *const *args, long long *number);
uint32_t sums_number(sums_of_packer *self, cadence_handle *handle, PyObject *name, long long number);
void sums_key(sums_of_packer *self, PyObject *name, const uint8_t *line, size_t len);
void sums_free(sums_of_packer *self);
uint32_t sums_flush(sums_of_packer *self, cadence_handle *handle);

/* A Packer. */
typedef struct {
    PyObject_HEAD
    cadence_handle handle;
    sums_of_packer sums;
    cadence_counts_of counts; /* as they were after the last call */
    cadence_settings settings; /* of each later call */
    uint8_t *texts; /* the texts of the settings */
    PyObject *kept; /* a list that keeps the texts of the default container and of the external data alive */
    size_t capacity, packets;
    uint64_t process; /* the number of the process whose lines it has */
    uint8_t *line; /* the text of the lines that lines.c makes and then gives on */
    size_t line_len, line_room;
} packer;

/* Keeps the metric of a call. Returns whether that made a packet, or -1 if it has set an exception. */
int packer_metric(packer *self, uint32_t kind, long form, PyObject *const *args);

bool is_packer(PyObject *value);

/* Makes the type Calls of calls.c. */
PyObject *type_of_calls(void);

/* lines.c: keeps the line of a call. If the packer adds lines up, the text of the line is in it afterwards. */
uint32_t keep(packer *self, call *c);

#endif
