/* SPDX-License-Identifier: Apache-2.0 OR MIT */
/* The calls that make events and service checks: they read the arguments, and then keep the line. */
#include "core.h"

/* Reads a text, or None, which leaves it empty. */
static bool any_text(PyObject *value, PyObject **texts, const uint8_t **at, size_t *len) {
    return value == Py_None || text_of(value, texts, at, len);
}

/* Reads tags. The library tests the parts of each one, so a text is cut at its first colon; the line stays the same. A strict
 * client cuts none, so it refuses such a text as it does in a metric. */
static bool begin_tags(tags_of_call *tags, PyObject *given, bool strict) {
    if (!tags_begin(tags, given)) return false;
    if (!strict) tags_cut(tags);
    return true;
}

static bool has_count(Py_ssize_t count, Py_ssize_t wanted) {
    if (count != wanted) PyErr_Format(PyExc_TypeError, "the call takes %zd arguments", wanted);
    return count == wanted;
}

/* title, text, timestamp, hostname, aggregation key, priority, source type, alert type, tags, container */
static bool read_event(cadence_event_data *event, tags_of_call *tags, PyObject *const *args, bool strict) {
    static const char *const priorities[] = { "low", "normal" }, *const alerts[] = { "error", "warning", "info", "success" };
    if (!text_of(args[0], &tags->texts, &event->title, &event->title_len)) return false;
    if (!text_of(args[1], &tags->texts, &event->text, &event->text_len)) return false;
    if (!time_of(args[2], &event->timed, &event->time)) return false;
    if (!any_text(args[3], &tags->texts, &event->host, &event->host_len)) return false;
    if (!any_text(args[4], &tags->texts, &event->key, &event->key_len)) return false;
    if (!number_of(args[5], "priority (low, normal)", priorities, 2, &event->priority)) return false;
    if (!any_text(args[6], &tags->texts, &event->source, &event->source_len)) return false;
    if (!number_of(args[7], "alert type (error, warning, info, success)", alerts, 4, &event->alert)) return false;
    if (!any_text(args[9], &tags->texts, &event->container, &event->container_len)) return false;
    if (!begin_tags(tags, args[8], strict)) return false;
    event->tags = tags->at;
    event->tags_len = tags->len;
    return true;
}

/* name, status, timestamp, hostname, message, tags, container */
static bool read_check(cadence_check_data *check, tags_of_call *tags, PyObject *const *args, bool strict) {
    if (!text_of(args[0], &tags->texts, &check->name, &check->name_len)) return false;
    const unsigned long status = PyLong_AsUnsignedLong(args[1]);
    if (PyErr_Occurred()) return false;
    check->status = status < UINT32_MAX ? (uint32_t)status : UINT32_MAX;
    if (!time_of(args[2], &check->timed, &check->time)) return false;
    if (!any_text(args[3], &tags->texts, &check->host, &check->host_len)) return false;
    if (!any_text(args[4], &tags->texts, &check->message, &check->message_len)) return false;
    if (!any_text(args[6], &tags->texts, &check->container, &check->container_len)) return false;
    if (!begin_tags(tags, args[5], strict)) return false;
    check->tags = tags->at;
    check->tags_len = tags->len;
    return true;
}

bool keep_event(cadence_handle *handle, const cadence_settings *settings, PyObject *const *args, Py_ssize_t count, uint32_t *status) {
    cadence_event_data event = CADENCE_NO_EVENT;
    tags_of_call tags = { .len = 0 };
    tags.at = tags.small;
    const bool is_read = has_count(count, 10) && read_event(&event, &tags, args, settings->strict);
    if (is_read) *status = cadence_event(handle, settings, &event);
    tags_end(&tags);
    return is_read;
}

bool keep_check(cadence_handle *handle, const cadence_settings *settings, PyObject *const *args, Py_ssize_t count, uint32_t *status) {
    cadence_check_data check = CADENCE_NO_CHECK;
    tags_of_call tags = { .len = 0 };
    tags.at = tags.small;
    const bool is_read = has_count(count, 7) && read_check(&check, &tags, args, settings->strict);
    if (is_read) *status = cadence_service_check(handle, settings, &check);
    tags_end(&tags);
    return is_read;
}
