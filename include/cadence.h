/* SPDX-License-Identifier: Apache-2.0 OR MIT */
/* The proved Statsd formatter and packer, for C and C++.
 *
 *     const cadence_settings settings = cadence_settings_of("my.service");
 *     cadence_handle client = CADENCE_CLOSED;
 *     cadence_open(&client, 1432, 8, CADENCE_DROP_OLDEST);
 *     cadence_count(&client, &settings, "visits", 1, NULL);
 *     cadence_flush(&client);
 *     while (cadence_next(&client, packet, sizeof packet, &length) == CADENCE_OK)
 *         if (send(fd, packet, length, 0) >= 0) cadence_sent(&client); else break;
 *     cadence_free(&client);
 *
 * Settings are what each line has: a prefix, default tags, a default container, external data, a default cardinality,
 * and whether they refuse or clean the texts of calls. They are in memory of the host, so any number of threads and
 * clients may read them at the same time.
 * A client packs the lines of metrics into packets. It starts no thread, takes no lock and opens no socket: the host
 * asks for the oldest finished packet (cadence_next), sends it, and then drops it (cadence_sent). A host that packs
 * lines by itself needs no client: cadence_format_signed and the calls after it write one line each. cadence_event and
 * cadence_service_check keep the lines of events and of service checks, which are packed among those of metrics.
 *
 * Sums (cadence_open_sums) add lines up before a client keeps them: cadence_add_line in place of cadence_line, and then
 * cadence_flush_sums before cadence_flush. With a key (cadence_make_key) a call adds a number up and makes no line:
 * cadence_add_number.
 *
 * The last part of this header has the calls for texts that end with a zero byte: cadence_settings_of,
 * cadence_settings_make, cadence_settings_make_cleaned, cadence_count, cadence_gauge, cadence_change, cadence_set_text,
 * cadence_time_millis and others.
 *
 * What the host must ensure:
 * - Only one call at a time uses a handle, or sums. Give each thread its own, or guard them with a lock. They may move
 *   to another thread under such a lock. Never copy a handle or sums: they have one owner.
 * - A pointer points to as many values as the length beside it says. During a call no other thread writes what the call
 *   reads, and no other thread reads or writes what it writes. If the length is 0, the pointer may be null. A pointer
 *   without a length is never null. What a call writes is not what it reads.
 * - malloc, realloc and free belong to one allocator. Make no call from a signal handler, or where malloc may not be
 *   called. The forked child of a process with threads is such a place, unless its C library allows malloc there, as
 *   glibc does. A forked child has a copy of what its parent holds. The child must make a new client, because otherwise
 *   both processes send the same packets.
 *
 * Each call but cadence_free, cadence_free_sums and cadence_version returns a status. If the status is not CADENCE_OK,
 * the client is as it was before the call, except that cadence_add_line, cadence_add_number and cadence_flush_sums may
 * have given it lines of the sums. If several statuses apply, a call returns the first one in this list:
 * - cadence_open: CADENCE_INVALID, CADENCE_NO_MEMORY. cadence_open_sums: CADENCE_NO_MEMORY.
 * - cadence_signed, cadence_unsigned, cadence_decimal, cadence_floating, cadence_duration:
 *   - for the values, CADENCE_INVALID if the call is cadence_duration and the kind has no durations, CADENCE_NO_MEMORY
 *     if there is not exactly one value and memory runs out, CADENCE_INVALID if a decimal has over 30 places, a double
 *     is NaN, infinite or too large, or the kind is CADENCE_CHANGE and there is not exactly one value;
 *   - CADENCE_NO_CLIENT;
 *   - for the rest of the call, CADENCE_NOT_UTF8 for the settings and the key, CADENCE_INVALID for the kind,
 *     CADENCE_NOT_UTF8 for the container or a tag, CADENCE_INVALID for the rate or a cardinality, CADENCE_SEPARATOR,
 *     CADENCE_NO_MEMORY for the line;
 *   - CADENCE_FULL, CADENCE_NO_MEMORY for the packet.
 *   cadence_member: CADENCE_INVALID for the member, and then the same.
 * - cadence_line, cadence_flush, cadence_flush_sums: CADENCE_NO_CLIENT, CADENCE_FULL, CADENCE_NO_MEMORY.
 *   cadence_add_line and cadence_add_number: CADENCE_NO_CLIENT for the sums, then CADENCE_NOT_UTF8 for the line or
 *   CADENCE_INVALID for the key, CADENCE_NO_CLIENT for the handle, CADENCE_FULL, CADENCE_NO_MEMORY.
 * - cadence_event, cadence_service_check: CADENCE_NOT_UTF8 for the settings, CADENCE_NO_MEMORY for the tags,
 *   CADENCE_NOT_UTF8 for a tag, CADENCE_INVALID for a number, CADENCE_NOT_UTF8 for another text, CADENCE_UNFIT_NAME and
 *   those after it, CADENCE_NO_MEMORY for the line, and then those of cadence_line.
 * - cadence_make_key: CADENCE_NO_CLIENT, CADENCE_NOT_UTF8, CADENCE_INVALID, CADENCE_NO_MEMORY.
 * - cadence_next: CADENCE_NO_CLIENT, CADENCE_NO_PACKET, CADENCE_TOO_SMALL. cadence_sent: the first two.
 * - cadence_held: CADENCE_NO_CLIENT, CADENCE_TOO_SMALL. cadence_drop_held: CADENCE_NO_CLIENT, CADENCE_FULL.
 * - cadence_counts: CADENCE_NO_CLIENT.
 * - cadence_format_signed, cadence_format_unsigned, cadence_format_decimal, cadence_format_floating,
 *   cadence_format_duration, cadence_format_member: the above for the values or the member, the above for the rest of
 *   the call, CADENCE_TOO_SMALL.
 * - cadence_decimal_of_double, cadence_rounded_of_double, cadence_chooses: CADENCE_INVALID.
 * - cadence_destination, cadence_environment_tags, cadence_environment_prefix, cadence_environment_container,
 *   cadence_environment_external: CADENCE_VARIABLE, CADENCE_NO_MEMORY, CADENCE_TOO_SMALL.
 *   cadence_environment_cardinality: the first two of these.
 *   cadence_variable_text: CADENCE_INVALID, CADENCE_NO_MEMORY, CADENCE_TOO_SMALL.
 * - cadence_prefix_text: CADENCE_NOT_UTF8, CADENCE_NO_MEMORY, CADENCE_SEPARATOR, CADENCE_NO_MEMORY for the cleaned
 *   prefix, CADENCE_TOO_SMALL. cadence_tags_text: CADENCE_NOT_UTF8, CADENCE_SEPARATOR, CADENCE_NO_MEMORY,
 *   CADENCE_TOO_SMALL. cadence_test_text: the first two of these. cadence_cleaned_text: all but the second one.
 *
 * Link with libcadence_c.a, which needs only the C library besides, or with libcadence_c.so, which exports only these
 * calls. Both are for Linux on x86-64 with the instructions of x86-64-v2 (SSE4.2).
 */
#ifndef CADENCE_H
#define CADENCE_H

#define CADENCE_VERSION_MAJOR 0
#define CADENCE_VERSION_MINOR 9
#define CADENCE_VERSION_PATCH 0
#define CADENCE_VERSION "0.9.0"

#include <stdbool.h>
#include <stddef.h>
#include <stdint.h>
#include <string.h>

#ifdef __cplusplus
#include <type_traits>
#define CADENCE_NULL nullptr
#define CADENCE_BYTES(text) reinterpret_cast<const uint8_t *>(text)
extern "C" {
#else
#define CADENCE_NULL NULL
#define CADENCE_BYTES(text) ((const uint8_t *)(text))
#endif

/* A client, or none. Initialize it with CADENCE_CLOSED, which is zeros. Only the library may use its fields. */
typedef struct cadence_handle {
    void *at;
    bool open;
} cadence_handle;

#define CADENCE_CLOSED { CADENCE_NULL, false }

/* Sums, or none. Initialize them with CADENCE_CLOSED, which is zeros. Only the library may use their fields. */
typedef struct cadence_sums {
    void *at;
    bool open;
} cadence_sums;

/* The statuses. */
enum {
    CADENCE_OK = 0,
    CADENCE_NO_CLIENT = 1, /* the handle is closed: it has no client; or the sums are closed */
    CADENCE_NO_MEMORY = 2, /* memory ran out */
    CADENCE_FULL = 3,      /* there is no room for the packets that the call makes: send a packet, then try again */
    CADENCE_INVALID = 4,   /* no such kind, policy, key, cardinality, priority, alert type or status of a service, fewer
                              than 2 packets, a kind without durations, a bad number, a text that can't be a member of a
                              set */
    CADENCE_NOT_UTF8 = 5,  /* a text is not UTF-8 */
    CADENCE_NO_PACKET = 6, /* no packet waits */
    CADENCE_TOO_SMALL = 7, /* the buffer is too small: *length is the size that is needed, in bytes */
    CADENCE_SEPARATOR = 8, /* the settings are strict, and a text has a ':', a ',', a '|' or a newline; or external data
                              have a '|' or a newline */
    CADENCE_VARIABLE = 9,  /* a variable of the environment can't be used: *variable is its number */
    /* Of an event or a service check, the first text in the line that can't stand there. All but the message have a ':',
     * a ',', a '|' or a newline. */
    CADENCE_UNFIT_NAME = 10, /* the name of a service check */
    CADENCE_UNFIT_HOST = 11,
    CADENCE_UNFIT_KEY = 12,
    CADENCE_UNFIT_SOURCE = 13,
    CADENCE_UNFIT_TAGS = 14, /* the key or the text of a tag */
    CADENCE_UNFIT_CONTAINER = 15,
    CADENCE_UNFIT_MESSAGE = 16 /* the message of a service check, which has a '|' */
};

/* What a client does if its queue of packets is full, and a call makes one more. */
enum {
    CADENCE_REFUSE = 0,     /* the call returns CADENCE_FULL */
    CADENCE_DROP_OLDEST = 1 /* the client drops its oldest packet and counts it; no call returns CADENCE_FULL */
};

/* The kinds of metrics, and after them the change of a gauge, which stands where a call names a kind. */
enum {
    CADENCE_COUNTER = 0,
    CADENCE_TIMER = 1, /* in milliseconds */
    CADENCE_GAUGE = 2,
    CADENCE_METER = 3,
    CADENCE_HISTOGRAM = 4,
    CADENCE_SET = 5,
    CADENCE_DISTRIBUTION = 6,
    CADENCE_CHANGE = 7 /* a gauge changes by the value, which is printed with its sign, as +3; the call has one value */
};

/* Which tags of its container a Datadog agent adds to a metric (DogStatsD's field `card`). If a metric has none, the agent
 * decides. Tags of more values make more series, which a server stores. */
enum {
    CADENCE_NO_CARDINALITY = 0,
    CADENCE_CARDINALITY_NONE = 1,         /* `none`: no tags */
    CADENCE_CARDINALITY_LOW = 2,          /* `low`: tags of few values, such as the name of an image */
    CADENCE_CARDINALITY_ORCHESTRATOR = 3, /* `orchestrator`: also those of a pod or a task */
    CADENCE_CARDINALITY_HIGH = 4          /* `high`: also those of a single container */
};

/* A decimal number: mantissa divided by 10 to the power of places. At most 30 places are valid. It is printed without
 * trailing zeros: mantissa 250 with 2 places prints as 2.5. */
typedef struct cadence_decimal_number {
    int64_t mantissa;
    uint8_t places;
} cadence_decimal_number;

/* A tag. If `keyed` is set, it prints as key:text, and otherwise as its text alone; its key is then neither read nor
 * tested. The lengths are in bytes. */
typedef struct cadence_tag {
    const uint8_t *key;
    size_t key_len;
    const uint8_t *text;
    size_t text_len;
    bool keyed;
} cadence_tag;

/* What each line has: the bytes that its name begins with (a prefix and its dot, as cadence_prefix_text makes them),
 * the text of its default tags (as cadence_tags_text makes it), and its default container if `contained` is set. If
 * `strict` is set, each call with a ':', a ',', a '|' or a newline in the key, in the key or the text of a tag, or in
 * the container is refused, also if its texts are `known`. The text of a tag with a key may have a ':', because the
 * first one ends the key. The texts of the settings themselves are tested when they are made: cadence_prefix_text and
 * cadence_tags_text test theirs, and cadence_test_text a container. So no text can make, change or split a metric. The
 * line of cadence_line is not tested.
 * If `cleaned` is set, and `strict` isn't, no call is refused for these bytes: each of them is printed as a '_'. The
 * colons in the text of a tag with a key stay. The texts of the settings are cleaned when they are made:
 * cadence_prefix_text and cadence_tags_text clean theirs, and cadence_cleaned_text a container. The member of a set is
 * never cleaned. If both are set, the settings are strict.
 * `external` are external data (DogStatsD's field `e`), unless external_len is 0: the value of DD_EXTERNAL_ENV, by which
 * a Datadog agent finds the container and the pod of the process. They are printed as they are, also if the settings are
 * strict or cleaned. A '|' or a newline would end them, so cadence_settings_enrich refuses these.
 * `cardinality` is the default cardinality, or CADENCE_NO_CARDINALITY. The lines of events and service checks have
 * neither. */
typedef struct cadence_settings {
    const uint8_t *prefix;
    size_t prefix_len;
    const uint8_t *tags;
    size_t tags_len;
    const uint8_t *container;
    size_t container_len;
    bool contained;
    bool strict;
    bool cleaned;
    const uint8_t *external;
    size_t external_len;
    uint32_t cardinality;
} cadence_settings;

/* Settings that add nothing, and that neither refuse nor clean the texts of calls. */
#define CADENCE_NO_SETTINGS                                                                                            \
    { CADENCE_NULL, 0, CADENCE_NULL, 0, CADENCE_NULL, 0, false, false, false, CADENCE_NULL, 0, CADENCE_NO_CARDINALITY }

/* What a call adds to its metric. The tags come after the default ones. If `contained` is set, the container replaces
 * the default one. If `rated` is set, the metric has a sampling rate. If `timed` is set, it has a time, in the unit
 * that the server reads (seconds for DogStatsD). No call samples: each one keeps its line, and the server scales by the
 * rate. Texts are printed as they are, with any separators in them, unless the settings are strict or cleaned. If
 * `known` is set, the host must ensure that all texts of the call are UTF-8: its key, and those of the options and the
 * settings. They are then not tested for that. Otherwise each is tested once. `cardinality` replaces the default one,
 * unless it is CADENCE_NO_CARDINALITY. */
typedef struct cadence_options {
    const cadence_tag *tags;
    size_t tags_len;
    const uint8_t *container;
    size_t container_len;
    cadence_decimal_number rate;
    uint64_t time;
    bool contained;
    bool rated;
    bool timed;
    bool known;
    uint32_t cardinality;
} cadence_options;

#define CADENCE_NO_OPTIONS                                                                                             \
    { CADENCE_NULL, 0, CADENCE_NULL, 0, { 0, 0 }, 0, false, false, false, false, CADENCE_NO_CARDINALITY }

/* How much an event matters. A server takes an event without a priority for a normal one. */
enum {
    CADENCE_NO_PRIORITY = 0,
    CADENCE_PRIORITY_LOW = 1,
    CADENCE_PRIORITY_NORMAL = 2
};

/* What kind of news an event is. A server takes an event without an alert type for an information. */
enum {
    CADENCE_NO_ALERT = 0,
    CADENCE_ALERT_ERROR = 1,
    CADENCE_ALERT_WARNING = 2,
    CADENCE_ALERT_INFO = 3,
    CADENCE_ALERT_SUCCESS = 4
};

/* The state of a service. */
enum {
    CADENCE_SERVICE_OK = 0,
    CADENCE_SERVICE_WARNING = 1, /* it works, but something is wrong */
    CADENCE_SERVICE_CRITICAL = 2, /* it doesn't work */
    CADENCE_SERVICE_UNKNOWN = 3
};

/* An event of DogStatsD: something that happened. The title and the text may have any character: a newline is escaped.
 * The other texts are left out if they are empty: the host, the key by which a server groups events, the source type,
 * as "jenkins", and the container, which replaces the default one. The tags come after the default ones. If `timed` is
 * set, the event has a time, in seconds since 1970. The lengths are in bytes. */
typedef struct cadence_event_data {
    const uint8_t *title;
    size_t title_len;
    const uint8_t *text;
    size_t text_len;
    const uint8_t *host;
    size_t host_len;
    const uint8_t *key;
    size_t key_len;
    const uint8_t *source;
    size_t source_len;
    const uint8_t *container;
    size_t container_len;
    const cadence_tag *tags;
    size_t tags_len;
    uint64_t time;
    uint32_t priority;
    uint32_t alert;
    bool timed;
} cadence_event_data;

#define CADENCE_NO_EVENT                                                                                               \
    { CADENCE_NULL, 0, CADENCE_NULL, 0, CADENCE_NULL, 0, CADENCE_NULL, 0, CADENCE_NULL, 0, CADENCE_NULL, 0,            \
      CADENCE_NULL, 0, 0, CADENCE_NO_PRIORITY, CADENCE_NO_ALERT, false }

/* A service check of DogStatsD: the state of a service. The host, the message and the container are left out if they are
 * empty. The message says why the service is in this state: a newline and `m:` are escaped. The rest is as in an event. */
typedef struct cadence_check_data {
    const uint8_t *name;
    size_t name_len;
    const uint8_t *host;
    size_t host_len;
    const uint8_t *message;
    size_t message_len;
    const uint8_t *container;
    size_t container_len;
    const cadence_tag *tags;
    size_t tags_len;
    uint64_t time;
    uint32_t status;
    bool timed;
} cadence_check_data;

#define CADENCE_NO_CHECK                                                                                               \
    { CADENCE_NULL, 0, CADENCE_NULL, 0, CADENCE_NULL, 0, CADENCE_NULL, 0, CADENCE_NULL, 0, 0, CADENCE_SERVICE_OK, false }

/* The counts of a client: `held` is how many bytes are held for the next packet, and `waiting` is how many packets
 * wait. `made` is how many packets the client made in all, `sent` how many cadence_sent dropped, and `dropped` how many
 * were dropped to make room; these three are modulo 2 to the 64. */
typedef struct cadence_counts_of {
    size_t held;
    size_t waiting;
    uint64_t made;
    uint64_t sent;
    uint64_t dropped;
} cadence_counts_of;

/* Makes a client in a handle, and frees an earlier client there with its packets. `capacity` is how many bytes a packet
 * holds. `packets` is how many packets may wait, at least 2. The call allocates 24 bytes for each of `packets`, and
 * `capacity` bytes for the packet that is being filled; each packet that waits has its own memory. Returns CADENCE_OK,
 * CADENCE_INVALID for the policy or for `packets`, or CADENCE_NO_MEMORY; after these two the handle is as it was. */
uint32_t cadence_open(cadence_handle *handle, size_t capacity, size_t packets, uint32_t policy);

/* Frees the client with its held text and its packets, and closes the handle. A closed handle stays closed. */
void cadence_free(cadence_handle *handle);

/* These five calls keep the line of a metric: the prefix and the key, the values with a colon between each two, the
 * kind, the default tags, and the options. The line is held with a newline if it fits into the packet that is being
 * filled. Otherwise the held text becomes a packet first. A line that is longer than the capacity with its newline then
 * becomes a packet of its own, without the newline. The client keeps the buffer of the longest line that these calls
 * made, so most calls allocate nothing. They return CADENCE_OK, CADENCE_NO_CLIENT, CADENCE_NOT_UTF8 for a text of the
 * settings, the key, a tag or the container, CADENCE_INVALID for the kind, a value, the rate or a cardinality,
 * CADENCE_SEPARATOR for the key, a tag or the container if the settings are strict, CADENCE_NO_MEMORY or
 * CADENCE_FULL. */
uint32_t cadence_signed(cadence_handle *handle, const cadence_settings *settings, uint32_t kind, const uint8_t *key,
                        size_t key_len, const int64_t *values, size_t values_len, const cadence_options *options);
uint32_t cadence_unsigned(cadence_handle *handle, const cadence_settings *settings, uint32_t kind, const uint8_t *key,
                          size_t key_len, const uint64_t *values, size_t values_len, const cadence_options *options);
uint32_t cadence_decimal(cadence_handle *handle, const cadence_settings *settings, uint32_t kind, const uint8_t *key,
                         size_t key_len, const cadence_decimal_number *values, size_t values_len,
                         const cadence_options *options);
/* Keeps a metric of doubles. Each is printed as a decimal: the shortest one that is read as the double, or, if that has
 * more than 30 places, this one rounded to 30 places. A zero of either sign is 0. In a timer the decimal is rounded to
 * six places, and a double nearer to 0 than 10 to the power of -7 is 0. The call returns CADENCE_INVALID if a double is
 * NaN, infinite, or more than 2 to the power of 127 away from 0. */
uint32_t cadence_floating(cadence_handle *handle, const cadence_settings *settings, uint32_t kind, const uint8_t *key,
                          size_t key_len, const double *values, size_t values_len, const cadence_options *options);
/* Keeps a metric of durations in nanoseconds. A timer prints whole milliseconds, rounded down, and a histogram prints
 * nanoseconds. The call returns CADENCE_INVALID for the other kinds. */
uint32_t cadence_duration(cadence_handle *handle, const cadence_settings *settings, uint32_t kind, const uint8_t *key,
                          size_t key_len, const uint64_t *nanos, size_t nanos_len, const cadence_options *options);

/* Keeps a metric of a set whose value is a text, as "alice". The member is printed as it is, also if the settings are
 * strict or cleaned. It has to be UTF-8 and not empty, and has no ':', '|' or newline, because each of these would end
 * it; otherwise the call returns CADENCE_INVALID. The rest is as in the five calls above. */
uint32_t cadence_member(cadence_handle *handle, const cadence_settings *settings, const uint8_t *key, size_t key_len,
                        const uint8_t *member, size_t member_len, const cadence_options *options);

/* Keeps a line that the host has made, without testing its bytes. The line is packed like the lines of the calls above.
 * Returns CADENCE_OK, CADENCE_NO_CLIENT, CADENCE_NO_MEMORY or CADENCE_FULL. */
uint32_t cadence_line(cadence_handle *handle, const uint8_t *line, size_t line_len);

/* These two calls keep the line of an event or of a service check, which is packed like that of a metric. It has the
 * default tags and the default container of the settings, and no prefix. Sums never get it. The grammar of DogStatsD
 * has no escape for a separator, so a text that can't stand in the line is refused, also if the settings are not strict.
 * If they clean texts, each of its separators is a '_', and so is each bar of a message: no call is refused for a text.
 * The texts of the settings are not tested for that: they are tested when they are made, if the settings are strict.
 * Texts are always tested for UTF-8. They return CADENCE_OK, CADENCE_NO_CLIENT, CADENCE_NOT_UTF8 for a text of the
 * settings or of the struct, CADENCE_INVALID for the priority, the alert type or the status of the service,
 * CADENCE_UNFIT_HOST or another CADENCE_UNFIT_ for the text that can't stand in the line, CADENCE_NO_MEMORY or
 * CADENCE_FULL. If it is not CADENCE_OK, nothing of the line is kept. */
uint32_t cadence_event(cadence_handle *handle, const cadence_settings *settings, const cadence_event_data *event);
uint32_t cadence_service_check(cadence_handle *handle, const cadence_settings *settings,
                               const cadence_check_data *check);

/* Makes a packet of the held text, if there is any. Returns CADENCE_OK, CADENCE_NO_CLIENT, CADENCE_NO_MEMORY or
 * CADENCE_FULL. */
uint32_t cadence_flush(cadence_handle *handle);

/* Copies the oldest packet that waits into `buf` and sets *length to its length in bytes. The packet still waits.
 * Returns CADENCE_OK; CADENCE_NO_CLIENT or CADENCE_NO_PACKET, with *length 0; or CADENCE_TOO_SMALL, with the length of
 * the packet in *length. A packet may be longer than the capacity, because a line longer than that is a packet of its
 * own. */
uint32_t cadence_next(cadence_handle *handle, uint8_t *buf, size_t buf_len, size_t *length);

/* Drops the oldest packet that waits, after the host has sent it. Returns CADENCE_OK, CADENCE_NO_CLIENT or
 * CADENCE_NO_PACKET. */
uint32_t cadence_sent(cadence_handle *handle);

/* Copies the held text into `buf`, for a host that sends it at once, and sets *length to its length in bytes. The text
 * stays held. Returns CADENCE_OK; CADENCE_NO_CLIENT, with *length 0; or CADENCE_TOO_SMALL, with the length of the text
 * in *length. */
uint32_t cadence_held(cadence_handle *handle, uint8_t *buf, size_t buf_len, size_t *length);

/* Drops the held text, after the host has sent it. Returns CADENCE_OK, CADENCE_NO_CLIENT, or CADENCE_FULL if a packet
 * waits, because it comes before the held text; the text is still held then. */
uint32_t cadence_drop_held(cadence_handle *handle);

/* Writes the counts of the client into *counts. Returns CADENCE_OK, or CADENCE_NO_CLIENT with *counts unchanged. */
uint32_t cadence_counts(cadence_handle *handle, cadence_counts_of *counts);

/* Makes sums, and frees earlier ones there with all that they hold. Sums hold what lines say of their contexts. A
 * context is a line without its values. Counters are summed, of a gauge the last value is held, and of a set each
 * member once. If `packed` is set, the values of a timer, a histogram or a distribution are packed into one line, as
 * t:1:2:3|ms, which not every server reads; otherwise such lines are not held. At most `contexts` contexts of each kind
 * are held (0 counts as 1), and lines of at most `longest` bytes. Returns CADENCE_OK, or CADENCE_NO_MEMORY, with the
 * sums as they were. */
uint32_t cadence_open_sums(cadence_sums *sums, size_t contexts, size_t longest, bool packed);

/* Frees the sums with all that they hold, and closes them. Closed sums stay closed. */
void cadence_free_sums(cadence_sums *sums);

/* Adds a line up: what it says is held, and the client gets no line for it yet. A line that can't be held goes to the
 * client at once, as in cadence_line: one with a time, a decimal counter, a meter, or one that is too long. A call may
 * also give the client a line for something that is held, which is then no longer held: the line of the oldest context,
 * if there is no room for a new one; of a sum that would not fit 64 bits; or of packed values that would make a line
 * too long. Before a line that can't be held and has `|g` in it, such as a gauge with a sign or a time, the client gets
 * a line for each gauge that is held, because a server may set a gauge by that line. If the client has no room for a
 * line, the line waits in the sums, and comes before all others. Returns CADENCE_OK; CADENCE_NO_CLIENT if the handle or
 * the sums are closed; CADENCE_NOT_UTF8; CADENCE_FULL if a line waits and the client has no room for it; or
 * CADENCE_NO_MEMORY. If it is not CADENCE_OK, the line is not added, and nothing that was added before is lost. */
uint32_t cadence_add_line(cadence_sums *sums, cadence_handle *handle, const uint8_t *line, size_t line_len);

/* Makes a key from a line, and writes the number of the key into *key. The line raises a counter, or sets a gauge; its
 * own number makes no difference. The key can be used until these sums are freed. Make one key for each context and
 * store its number, because each call makes a new key. Returns CADENCE_OK; CADENCE_NO_CLIENT if the sums are
 * closed; CADENCE_NOT_UTF8; CADENCE_INVALID if the line can't be added, or is not that of a counter or a gauge; or
 * CADENCE_NO_MEMORY. */
uint32_t cadence_make_key(cadence_sums *sums, const uint8_t *line, size_t line_len, size_t *key);

/* Adds up a number by a key, as cadence_add_line does with the line of the key that has this number, but makes no line:
 * it raises the counter by the number, or sets the gauge to it. The number is held if the line without it has at most
 * `longest` bytes. Returns what cadence_add_line returns, but CADENCE_INVALID in place of CADENCE_NOT_UTF8: if these
 * sums have no such key, or the number of a gauge is negative. */
uint32_t cadence_add_number(cadence_sums *sums, cadence_handle *handle, size_t key, int64_t number);

/* Gives the client a line for each context that is held, so that nothing is held any more. Call cadence_flush after it.
 * Returns CADENCE_OK, CADENCE_NO_CLIENT, CADENCE_NO_MEMORY or CADENCE_FULL. Check for the last two, because no later
 * call reports them: what the client did not get is still held, so send the packets that wait, and call again. With
 * CADENCE_DROP_OLDEST the client drops packets of a large flush, if it makes more packets than may wait. */
uint32_t cadence_flush_sums(cadence_sums *sums, cadence_handle *handle);

/* These six calls write one line into `out`, without a newline, and set *length to its length in bytes. They need no
 * client and share nothing but the settings, which they only read, so threads may make them at the same time. They
 * return CADENCE_OK; CADENCE_TOO_SMALL, with the length of the line in *length; or CADENCE_NOT_UTF8, CADENCE_INVALID,
 * CADENCE_SEPARATOR or CADENCE_NO_MEMORY, with *length 0. cadence_format_floating prints doubles like cadence_floating,
 * cadence_format_duration durations like cadence_duration, and cadence_format_member a member like cadence_member. */
uint32_t cadence_format_signed(const cadence_settings *settings, uint32_t kind, const uint8_t *key, size_t key_len,
                               const int64_t *values, size_t values_len, const cadence_options *options, uint8_t *out,
                               size_t out_len, size_t *length);
uint32_t cadence_format_unsigned(const cadence_settings *settings, uint32_t kind, const uint8_t *key, size_t key_len,
                                 const uint64_t *values, size_t values_len, const cadence_options *options,
                                 uint8_t *out, size_t out_len, size_t *length);
uint32_t cadence_format_decimal(const cadence_settings *settings, uint32_t kind, const uint8_t *key, size_t key_len,
                                const cadence_decimal_number *values, size_t values_len, const cadence_options *options,
                                uint8_t *out, size_t out_len, size_t *length);
uint32_t cadence_format_floating(const cadence_settings *settings, uint32_t kind, const uint8_t *key, size_t key_len,
                                 const double *values, size_t values_len, const cadence_options *options, uint8_t *out,
                                 size_t out_len, size_t *length);
uint32_t cadence_format_duration(const cadence_settings *settings, uint32_t kind, const uint8_t *key, size_t key_len,
                                 const uint64_t *nanos, size_t nanos_len, const cadence_options *options, uint8_t *out,
                                 size_t out_len, size_t *length);
uint32_t cadence_format_member(const cadence_settings *settings, const uint8_t *key, size_t key_len,
                               const uint8_t *member, size_t member_len, const cadence_options *options, uint8_t *out,
                               size_t out_len, size_t *length);

/* Writes what each name of a prefix begins with into `out`, and sets *length to its length in bytes: nothing if the
 * prefix is empty, and otherwise the prefix with exactly one dot at its end. If `strict` is set, a prefix with a
 * separator is refused. Otherwise, if `is_cleaned` is set, each separator is a '_'. Needs no client. Returns
 * CADENCE_OK; CADENCE_TOO_SMALL, with the length of the text in *length; or CADENCE_NOT_UTF8, CADENCE_SEPARATOR or
 * CADENCE_NO_MEMORY, with *length 0. */
uint32_t cadence_prefix_text(const uint8_t *prefix, size_t prefix_len, bool strict, bool is_cleaned, uint8_t *out,
                             size_t out_len, size_t *length);

/* Writes the text of default tags into `out`, in the form in which a line has them, and sets *length to its length in
 * bytes. If `strict` is set, tags with a separator are refused, other than a ':' after a key. Otherwise, if
 * `is_cleaned` is set, each separator in a key or a text is a '_', other than a ':' after a key. It returns what
 * cadence_prefix_text returns. */
uint32_t cadence_tags_text(const cadence_tag *tags, size_t tags_len, bool strict, bool is_cleaned, uint8_t *out,
                           size_t out_len, size_t *length);

/* Tests a text, as a default container of strict settings. Returns CADENCE_OK; CADENCE_NOT_UTF8; or CADENCE_SEPARATOR
 * if the text has a ':', a ',', a '|' or a newline. */
uint32_t cadence_test_text(const uint8_t *text, size_t text_len);

/* Writes a cleaned text into `out`, as a default container of cleaned settings, and sets *length to its length in bytes,
 * which is that of the text. Each ':', ',', '|' and newline is a '_'. Needs no client. Returns CADENCE_OK;
 * CADENCE_TOO_SMALL, with that length; or CADENCE_NOT_UTF8 or CADENCE_NO_MEMORY, with *length 0. */
uint32_t cadence_cleaned_text(const uint8_t *text, size_t text_len, uint8_t *out, size_t out_len, size_t *length);

/* Sets *number to the decimal as which cadence_floating prints the double in a gauge, for a host that needs the number,
 * as for a sampling rate. Needs no client. Returns CADENCE_OK, or CADENCE_INVALID with *number unchanged, if
 * cadence_floating returns that, or if the mantissa of the decimal needs more than 63 bits, as from 2 to the power of
 * 63 on. */
uint32_t cadence_decimal_of_double(double value, cadence_decimal_number *number);

/* The same, with the decimal as which cadence_floating prints the double in a timer. */
uint32_t cadence_rounded_of_double(double value, cadence_decimal_number *number);

/* Sets *chosen to whether a call of a sample is made: with this chance, if `draw` is a random number of 64 bits. The chance is
 * above 0 and at most 1, with at most 18 places. It is then the rate of the call, so that the server scales. Needs no
 * client. Returns CADENCE_OK, or CADENCE_INVALID with *chosen unchanged if the number is no chance. */
uint32_t cadence_chooses(const cadence_decimal_number *chance, uint64_t draw, bool *chosen);

/* The values of the variables of the environment: DD_DOGSTATSD_URL, DD_DOGSTATSD_SOCKET, DD_AGENT_HOST,
 * DD_DOGSTATSD_PORT, STATSD_HOST, STATSD_PORT, DD_ENV, DD_SERVICE, DD_VERSION, DD_TAGS, DD_ENTITY_ID,
 * DD_DOGSTATSD_DISABLE, STATSD_ENABLED, STATSD_MAXUDPSIZE, STATSD_PREFIX, DD_ORIGIN_DETECTION_ENABLED, STATSD_IPV6,
 * DD_EXTERNAL_ENV, DD_CARDINALITY and DATADOG_CARDINALITY. A variable that isn't set has the empty text. The number of
 * a variable is its place here, from 0 on; cadence_variable_name returns its name. */
typedef struct cadence_variables {
    const uint8_t *url;
    size_t url_len;
    const uint8_t *socket;
    size_t socket_len;
    const uint8_t *agent_host;
    size_t agent_host_len;
    const uint8_t *agent_port;
    size_t agent_port_len;
    const uint8_t *statsd_host;
    size_t statsd_host_len;
    const uint8_t *statsd_port;
    size_t statsd_port_len;
    const uint8_t *env;
    size_t env_len;
    const uint8_t *service;
    size_t service_len;
    const uint8_t *version;
    size_t version_len;
    const uint8_t *tags;
    size_t tags_len;
    const uint8_t *entity_id;
    size_t entity_id_len;
    const uint8_t *disable;
    size_t disable_len;
    const uint8_t *enabled;
    size_t enabled_len;
    const uint8_t *max_size;
    size_t max_size_len;
    const uint8_t *prefix;
    size_t prefix_len;
    const uint8_t *origin;
    size_t origin_len;
    const uint8_t *ipv6;
    size_t ipv6_len;
    const uint8_t *external;
    size_t external_len;
    const uint8_t *cardinality;
    size_t cardinality_len;
    const uint8_t *datadog_cardinality;
    size_t datadog_cardinality_len;
} cadence_variables;

/* Writes where the variables say to send into `out`, and sets *length to the length of that text in bytes: a host,
 * which is a name or an address without brackets, with its port in *port; or the absolute path of a Unix datagram
 * socket, with *port 0; or no text, with *port 0, if DD_DOGSTATSD_DISABLE says yes or STATSD_ENABLED says no, and
 * then nothing is sent. Otherwise DD_DOGSTATSD_URL wins over all others, DD_DOGSTATSD_SOCKET over the rest, and
 * DD_AGENT_HOST and DD_DOGSTATSD_PORT over STATSD_HOST and STATSD_PORT. By default it is 127.0.0.1 and 8125. Sets
 * *capacity to how many bytes a packet has: STATSD_MAXUDPSIZE to a host, which is 1432 by default, and 8192
 * otherwise. Sets *only_ipv6 to whether the host is to be looked up for addresses of IPv6 alone (AF_INET6), because
 * STATSD_IPV6 says yes; it is false if there is no host. Needs no client. Returns CADENCE_OK; CADENCE_TOO_SMALL, with
 * the length of the text in *length; or CADENCE_VARIABLE, with the number of the variable in *variable, or
 * CADENCE_NO_MEMORY, with *length 0. A variable that another one overrides is not tested. */
uint32_t cadence_destination(const cadence_variables *variables, uint8_t *out, size_t out_len, size_t *length,
                             uint16_t *port, size_t *capacity, bool *only_ipv6, uint32_t *variable);

/* Writes the text of the default tags that the variables say into `out`, as cadence_tags_text does, and returns what
 * cadence_destination returns. No text of them has a ',', a '|' or a newline, and no key has a ':', so the text can be
 * cut into the tags again. */
uint32_t cadence_environment_tags(const cadence_variables *variables, uint8_t *out, size_t out_len, size_t *length,
                                  uint32_t *variable);

/* Writes the prefix that STATSD_PREFIX says into `out`, and returns what cadence_destination returns. The text has no ':',
 * ',', '|' or newline, and is empty by default. It is meant for a caller that has no prefix of its own. */
uint32_t cadence_environment_prefix(const cadence_variables *variables, uint8_t *out, size_t out_len, size_t *length,
                                    uint32_t *variable);

/* Writes the default container of a client into `out`, and returns what cadence_destination returns. It is empty unless
 * DD_ORIGIN_DETECTION_ENABLED says yes. Then it is the container of the process: the id that the first of the lines of
 * `cgroup` has at its end, or before a `.scope` there, which is 64 digits in hexadecimal, 32 of them with a dash and a
 * number, or the groups of a UUID. If no line has one and `inode` is not 0, it is `in-` and that number. `cgroup` is what
 * the file /proc/self/cgroup has, and `inode` the number of the directory of the process below /sys/fs/cgroup, or 0 if the
 * process is in the control groups of the host. It is meant for a caller that has no container of its own. */
uint32_t cadence_environment_container(const cadence_variables *variables, const uint8_t *cgroup, size_t cgroup_len,
                                       uint64_t inode, uint8_t *out, size_t out_len, size_t *length, uint32_t *variable);

/* Writes the default external data of a client into `out`, and returns what cadence_destination returns. They are empty
 * unless DD_ORIGIN_DETECTION_ENABLED says yes. Then they are the text of DD_EXTERNAL_ENV without bars and control
 * characters of ASCII. It has to be UTF-8, but is not tested if it isn't wanted. It is meant for a caller that has no
 * external data of its own. */
uint32_t cadence_environment_external(const cadence_variables *variables, uint8_t *out, size_t out_len, size_t *length,
                                      uint32_t *variable);

/* Sets *cardinality to the number of the default cardinality: the one that DD_CARDINALITY says, or if it isn't set the one
 * that DATADOG_CARDINALITY says, or CADENCE_NO_CARDINALITY if neither is set. Only these two are tested, and the second
 * one only if the first one isn't set. Needs no client. Returns CADENCE_OK; or CADENCE_VARIABLE, with the number of the
 * variable in *variable, or CADENCE_NO_MEMORY, with *cardinality unchanged. It is meant for a caller that has no
 * cardinality of its own. */
uint32_t cadence_environment_cardinality(const cadence_variables *variables, uint32_t *cardinality, uint32_t *variable);

/* Writes the message for a variable that can't be used into `out`: its name, and what its value has to be. Sets *length
 * to the length of that text in bytes. Returns CADENCE_OK; CADENCE_TOO_SMALL, with that length; or CADENCE_INVALID or
 * CADENCE_NO_MEMORY, with *length 0. */
uint32_t cadence_variable_text(uint32_t variable, uint8_t *out, size_t out_len, size_t *length);

/* Returns the version of the linked library. CADENCE_VERSION is the version of this header. */
const char *cadence_version(void);

/* The functions below are C code in this header. They make the calls above for texts that end with a zero byte. A null
 * prefix, key or text is an empty one, null settings are CADENCE_NO_SETTINGS, and null options are CADENCE_NO_OPTIONS.
 * Each returns the status of the call that it makes. */

/* Returns a status in words. */
static inline const char *cadence_status_text(uint32_t status) {
    switch (status) {
    case CADENCE_OK: return "done";
    case CADENCE_NO_CLIENT: return "the client is closed (CADENCE_NO_CLIENT)";
    case CADENCE_NO_MEMORY: return "out of memory (CADENCE_NO_MEMORY)";
    case CADENCE_FULL: return "too many packets wait: send them, then try again (CADENCE_FULL)";
    case CADENCE_INVALID: return "an unknown kind, policy, key or the like, or a value out of range (CADENCE_INVALID)";
    case CADENCE_NOT_UTF8: return "a text is not UTF-8 (CADENCE_NOT_UTF8)";
    case CADENCE_NO_PACKET: return "no packet waits (CADENCE_NO_PACKET)";
    case CADENCE_TOO_SMALL: return "the buffer is too small (CADENCE_TOO_SMALL)";
    case CADENCE_SEPARATOR: return "a text has a separator that is refused (CADENCE_SEPARATOR)";
    case CADENCE_VARIABLE: return "a variable of the environment can't be used (CADENCE_VARIABLE)";
    case CADENCE_UNFIT_NAME: return "separator in the name of a service check (CADENCE_UNFIT_NAME)";
    case CADENCE_UNFIT_HOST: return "separator in the host (CADENCE_UNFIT_HOST)";
    case CADENCE_UNFIT_KEY: return "separator in the aggregation key (CADENCE_UNFIT_KEY)";
    case CADENCE_UNFIT_SOURCE: return "separator in the source type (CADENCE_UNFIT_SOURCE)";
    case CADENCE_UNFIT_TAGS: return "separator in a tag (CADENCE_UNFIT_TAGS)";
    case CADENCE_UNFIT_CONTAINER: return "separator in the container (CADENCE_UNFIT_CONTAINER)";
    case CADENCE_UNFIT_MESSAGE: return "bar in the message of a service check (CADENCE_UNFIT_MESSAGE)";
    default: return "no status of cadence.h";
    }
}

static inline size_t cadence_length_of(const char *text) {
    return text != CADENCE_NULL ? strlen(text) : 0;
}

/* Returns the name of a variable, or null if none has the number. */
static inline const char *cadence_variable_name(uint32_t variable) {
    static const char *const names[] = {
        "DD_DOGSTATSD_URL", "DD_DOGSTATSD_SOCKET", "DD_AGENT_HOST",  "DD_DOGSTATSD_PORT",
        "STATSD_HOST",      "STATSD_PORT",         "DD_ENV",         "DD_SERVICE",
        "DD_VERSION",       "DD_TAGS",             "DD_ENTITY_ID",   "DD_DOGSTATSD_DISABLE",
        "STATSD_ENABLED",   "STATSD_MAXUDPSIZE",   "STATSD_PREFIX",  "DD_ORIGIN_DETECTION_ENABLED",
        "STATSD_IPV6",      "DD_EXTERNAL_ENV",     "DD_CARDINALITY", "DATADOG_CARDINALITY",
    };
    return variable < sizeof names / sizeof names[0] ? names[variable] : CADENCE_NULL;
}

/* Returns the values of the variables, each as a function returns it for its name, or null if it isn't set: for example
 * getenv. They point to the values, so keep these alive. */
static inline cadence_variables cadence_variables_of(char *(*value_of)(const char *name)) {
    const char *at[20];
    for (uint32_t i = 0; i < 20; i++) at[i] = value_of(cadence_variable_name(i));
    cadence_variables variables;
#define CADENCE_SET(field, i) (variables.field = CADENCE_BYTES(at[i]), variables.field##_len = cadence_length_of(at[i]))
    CADENCE_SET(url, 0), CADENCE_SET(socket, 1), CADENCE_SET(agent_host, 2), CADENCE_SET(agent_port, 3);
    CADENCE_SET(statsd_host, 4), CADENCE_SET(statsd_port, 5), CADENCE_SET(env, 6), CADENCE_SET(service, 7);
    CADENCE_SET(version, 8), CADENCE_SET(tags, 9), CADENCE_SET(entity_id, 10), CADENCE_SET(disable, 11);
    CADENCE_SET(enabled, 12), CADENCE_SET(max_size, 13), CADENCE_SET(prefix, 14), CADENCE_SET(origin, 15);
    CADENCE_SET(ipv6, 16), CADENCE_SET(external, 17), CADENCE_SET(cardinality, 18);
    CADENCE_SET(datadog_cardinality, 19);
#undef CADENCE_SET
    return variables;
}

/* Returns a tag of a key and a text, or of the text alone if the key is null. The tag points to both, so keep them
 * alive. */
static inline cadence_tag cadence_tag_of(const char *key, const char *text) {
    cadence_tag tag;
    tag.key = CADENCE_BYTES(key);
    tag.key_len = cadence_length_of(key);
    tag.text = CADENCE_BYTES(text);
    tag.text_len = cadence_length_of(text);
    tag.keyed = key != CADENCE_NULL;
    return tag;
}

/* Returns options that have only tags. They point to the tags, so keep these alive. */
static inline cadence_options cadence_options_of(const cadence_tag *tags, size_t tags_len) {
    cadence_options options = CADENCE_NO_OPTIONS;
    options.tags = tags;
    options.tags_len = tags_len;
    return options;
}

/* Returns settings of a text that ends with one dot more than a prefix, as cadence_settings_of makes it. */
static inline cadence_settings cadence_settings_of_dotted(const char *text, size_t len) {
    cadence_settings settings = CADENCE_NO_SETTINGS;
    while (len > 1 && text[len - 2] == '.') len--;
    settings.prefix = CADENCE_BYTES(text);
    settings.prefix_len = text[1] != '\0' ? len : 0;
    return settings;
}

/* Returns settings that begin each name with a prefix and a dot, and add nothing else. The prefix is a literal, with a dot
 * at its end or without one, as "my.service". Another text does not compile: cadence_settings_make takes it. */
#define cadence_settings_of(prefix) cadence_settings_of_dotted(prefix ".", sizeof(prefix))

/* Makes the container of settings: it is tested if they are strict, and written into `room` if they are cleaned. */
static inline uint32_t cadence_settings_contain(cadence_settings *settings, const char *container, uint8_t *room,
                                                size_t room_len) {
    settings->container = CADENCE_BYTES(container);
    settings->container_len = cadence_length_of(container);
    settings->contained = container != CADENCE_NULL;
    if (settings->contained && settings->strict) return cadence_test_text(settings->container, settings->container_len);
    if (!settings->contained || !settings->cleaned) return CADENCE_OK;
    settings->container = room;
    return cadence_cleaned_text(CADENCE_BYTES(container), cadence_length_of(container), room, room_len,
                                &settings->container_len);
}

/* Makes settings, as cadence_settings_make and cadence_settings_make_cleaned do. */
static inline uint32_t cadence_settings_make_as(cadence_settings *settings, const char *prefix, const cadence_tag *tags,
                                                size_t tags_len, const char *container, bool strict, bool is_cleaned,
                                                uint8_t *room, size_t room_len, size_t *needed) {
    cadence_settings made = CADENCE_NO_SETTINGS;
    made.strict = strict;
    made.cleaned = is_cleaned;
    *needed = 0;
    uint32_t status = cadence_prefix_text(CADENCE_BYTES(prefix), cadence_length_of(prefix), strict, is_cleaned, room,
                                          room_len, &made.prefix_len);
    bool fits = status == CADENCE_OK;
    if (!fits && status != CADENCE_TOO_SMALL) return status;
    made.prefix = room;
    if (fits && made.prefix_len != 0) room += made.prefix_len;
    room_len = fits ? room_len - made.prefix_len : 0;
    made.tags = room;
    status = cadence_tags_text(tags, tags_len, strict, is_cleaned, room, room_len, &made.tags_len);
    if (status != CADENCE_OK && status != CADENCE_TOO_SMALL) return status;
    fits = fits && status == CADENCE_OK;
    if (fits && made.tags_len != 0) room += made.tags_len;
    room_len = fits ? room_len - made.tags_len : 0;
    status = cadence_settings_contain(&made, container, room, room_len);
    if (status != CADENCE_OK && status != CADENCE_TOO_SMALL) return status;
    *needed = made.prefix_len + made.tags_len + (is_cleaned ? made.container_len : 0);
    if (!fits || status != CADENCE_OK) return CADENCE_TOO_SMALL;
    *settings = made;
    return CADENCE_OK;
}

/* Makes settings of a prefix, default tags, a default container, which may be null, and whether they are strict. The
 * prefix gets a dot at its end if it has none. The texts are in `room`, and the settings point there and to the
 * container, so keep both alive. Sets *needed to how many bytes of room the texts need. Returns CADENCE_OK; the status of
 * the call that refuses a text, with *needed 0; or CADENCE_TOO_SMALL. */
static inline uint32_t cadence_settings_make(cadence_settings *settings, const char *prefix, const cadence_tag *tags,
                                             size_t tags_len, const char *container, bool strict, uint8_t *room,
                                             size_t room_len, size_t *needed) {
    return cadence_settings_make_as(settings, prefix, tags, tags_len, container, strict, false, room, room_len, needed);
}

/* Makes settings that clean the texts of calls. Their own texts are cleaned too, and all of them are in `room`, also the
 * container. The rest is as in cadence_settings_make, but no text is refused for a separator. */
static inline uint32_t cadence_settings_make_cleaned(cadence_settings *settings, const char *prefix,
                                                     const cadence_tag *tags, size_t tags_len, const char *container,
                                                     uint8_t *room, size_t room_len, size_t *needed) {
    return cadence_settings_make_as(settings, prefix, tags, tags_len, container, false, true, room, room_len, needed);
}

/* Gives settings external data, which may be null for none, and a default cardinality. The settings point to the text,
 * so keep it alive. Returns CADENCE_OK; CADENCE_SEPARATOR if the text has a '|' or a newline, also if the settings are not
 * strict; or CADENCE_INVALID for the cardinality; after these two the settings are as they were. */
static inline uint32_t cadence_settings_enrich(cadence_settings *settings, const char *external, uint32_t cardinality) {
    const size_t length = cadence_length_of(external);
    if (length != 0 && strpbrk(external, "|\n") != CADENCE_NULL) return CADENCE_SEPARATOR;
    if (cardinality > CADENCE_CARDINALITY_HIGH) return CADENCE_INVALID;
    settings->external = CADENCE_BYTES(external);
    settings->external_len = length;
    settings->cardinality = cardinality;
    return CADENCE_OK;
}

/* Keeps a metric of one whole number, like cadence_signed. */
static inline uint32_t cadence_whole(cadence_handle *handle, const cadence_settings *settings, uint32_t kind,
                                     const char *key, int64_t value, const cadence_options *options) {
    const cadence_options none = CADENCE_NO_OPTIONS;
    const cadence_settings nothing = CADENCE_NO_SETTINGS;
    return cadence_signed(handle, settings != CADENCE_NULL ? settings : &nothing, kind, CADENCE_BYTES(key),
                          cadence_length_of(key), &value, 1, options != CADENCE_NULL ? options : &none);
}

/* Keeps a metric of one whole number that isn't negative, like cadence_unsigned. */
static inline uint32_t cadence_natural(cadence_handle *handle, const cadence_settings *settings, uint32_t kind,
                                       const char *key, uint64_t value, const cadence_options *options) {
    const cadence_options none = CADENCE_NO_OPTIONS;
    const cadence_settings nothing = CADENCE_NO_SETTINGS;
    return cadence_unsigned(handle, settings != CADENCE_NULL ? settings : &nothing, kind, CADENCE_BYTES(key),
                            cadence_length_of(key), &value, 1, options != CADENCE_NULL ? options : &none);
}

/* Keeps a metric of one decimal number, like cadence_decimal: mantissa divided by 10 to the power of places. */
static inline uint32_t cadence_parts(cadence_handle *handle, const cadence_settings *settings, uint32_t kind,
                                     const char *key, int64_t mantissa, uint8_t places,
                                     const cadence_options *options) {
    const cadence_options none = CADENCE_NO_OPTIONS;
    const cadence_settings nothing = CADENCE_NO_SETTINGS;
    cadence_decimal_number value;
    value.mantissa = mantissa;
    value.places = places;
    return cadence_decimal(handle, settings != CADENCE_NULL ? settings : &nothing, kind, CADENCE_BYTES(key),
                           cadence_length_of(key), &value, 1, options != CADENCE_NULL ? options : &none);
}

/* Keeps a metric of one double, like cadence_floating. */
static inline uint32_t cadence_double(cadence_handle *handle, const cadence_settings *settings, uint32_t kind,
                                      const char *key, double value, const cadence_options *options) {
    const cadence_options none = CADENCE_NO_OPTIONS;
    const cadence_settings nothing = CADENCE_NO_SETTINGS;
    return cadence_floating(handle, settings != CADENCE_NULL ? settings : &nothing, kind, CADENCE_BYTES(key),
                            cadence_length_of(key), &value, 1, options != CADENCE_NULL ? options : &none);
}

/* Keeps a time in nanoseconds. It is printed in milliseconds with up to six places, which cadence_duration would drop.
 * */
static inline uint32_t cadence_time_nanos(cadence_handle *handle, const cadence_settings *settings, const char *key,
                                          int64_t nanos, const cadence_options *options) {
    return cadence_parts(handle, settings, CADENCE_TIMER, key, nanos, 6, options);
}

/* Keeps a metric of a set whose value is a text, like cadence_member. */
static inline uint32_t cadence_set_text(cadence_handle *handle, const cadence_settings *settings, const char *key,
                                        const char *member, const cadence_options *options) {
    const cadence_options none = CADENCE_NO_OPTIONS;
    const cadence_settings nothing = CADENCE_NO_SETTINGS;
    return cadence_member(handle, settings != CADENCE_NULL ? settings : &nothing, CADENCE_BYTES(key),
                          cadence_length_of(key), CADENCE_BYTES(member), cadence_length_of(member),
                          options != CADENCE_NULL ? options : &none);
}

/* How many bytes the two lines of a gauge below 0 may have. */
enum { CADENCE_LEVEL_BYTES = 2048 };

/* Writes the line that sets a gauge to 0, and a newline, into the first bytes of `lines`. */
static inline uint32_t cadence_zero_line(const cadence_settings *settings, const char *key,
                                         const cadence_options *options, uint8_t *lines, size_t *length) {
    const int64_t zero = 0;
    const uint32_t status =
        cadence_format_signed(settings, CADENCE_GAUGE, CADENCE_BYTES(key), cadence_length_of(key), &zero, 1, options,
                              lines, CADENCE_LEVEL_BYTES - 1, length);
    if (status == CADENCE_OK) lines[(*length)++] = '\n';
    return status;
}

/* Sets a gauge to a whole number, also to one below 0. A server reads a value with a sign as a change of the gauge, so a
 * gauge below 0 is set to 0 first. The client keeps both lines as one text, with a newline between them, so they are in the
 * same packet or not sent at all. Returns what cadence_signed returns; or CADENCE_TOO_SMALL, with nothing kept, if two
 * lines have more than CADENCE_LEVEL_BYTES bytes. */
static inline uint32_t cadence_level_whole(cadence_handle *handle, const cadence_settings *settings, const char *key,
                                           int64_t value, const cadence_options *options) {
    const cadence_options none = CADENCE_NO_OPTIONS;
    const cadence_settings nothing = CADENCE_NO_SETTINGS;
    uint8_t lines[CADENCE_LEVEL_BYTES];
    size_t zero, length;
    if (value >= 0) return cadence_whole(handle, settings, CADENCE_GAUGE, key, value, options);
    if (settings == CADENCE_NULL) settings = &nothing;
    if (options == CADENCE_NULL) options = &none;
    uint32_t status = cadence_zero_line(settings, key, options, lines, &zero);
    if (status == CADENCE_OK)
        status = cadence_format_signed(settings, CADENCE_GAUGE, CADENCE_BYTES(key), cadence_length_of(key), &value, 1,
                                       options, lines + zero, CADENCE_LEVEL_BYTES - zero, &length);
    return status != CADENCE_OK ? status : cadence_line(handle, lines, zero + length);
}

/* Sets a gauge to a double, also to one below 0, in the same way. Returns what cadence_floating returns, or
 * CADENCE_TOO_SMALL. */
static inline uint32_t cadence_level_double(cadence_handle *handle, const cadence_settings *settings, const char *key,
                                            double value, const cadence_options *options) {
    const cadence_options none = CADENCE_NO_OPTIONS;
    const cadence_settings nothing = CADENCE_NO_SETTINGS;
    uint8_t lines[CADENCE_LEVEL_BYTES];
    size_t zero, length;
    if (!(value < 0)) return cadence_double(handle, settings, CADENCE_GAUGE, key, value, options);
    if (settings == CADENCE_NULL) settings = &nothing;
    if (options == CADENCE_NULL) options = &none;
    uint32_t status = cadence_zero_line(settings, key, options, lines, &zero);
    if (status == CADENCE_OK)
        status = cadence_format_floating(settings, CADENCE_GAUGE, CADENCE_BYTES(key), cadence_length_of(key), &value, 1,
                                         options, lines + zero, CADENCE_LEVEL_BYTES - zero, &length);
    return status != CADENCE_OK ? status : cadence_line(handle, lines, zero + length);
}

/* Keeps a line that the host has made, like cadence_line. */
static inline uint32_t cadence_raw(cadence_handle *handle, const char *line) {
    return cadence_line(handle, CADENCE_BYTES(line), cadence_length_of(line));
}

/* Returns an event of a title and a text that has nothing else. It points to both, so keep them alive. */
static inline cadence_event_data cadence_event_of(const char *title, const char *text) {
    cadence_event_data event = CADENCE_NO_EVENT;
    event.title = CADENCE_BYTES(title);
    event.title_len = cadence_length_of(title);
    event.text = CADENCE_BYTES(text);
    event.text_len = cadence_length_of(text);
    return event;
}

/* Returns a service check of a name, a status and a message, which may be null. It points to the texts, so keep them
 * alive. */
static inline cadence_check_data cadence_check_of(const char *name, uint32_t status, const char *message) {
    cadence_check_data check = CADENCE_NO_CHECK;
    check.name = CADENCE_BYTES(name);
    check.name_len = cadence_length_of(name);
    check.status = status;
    check.message = CADENCE_BYTES(message);
    check.message_len = cadence_length_of(message);
    return check;
}

/* Adds up a metric of one whole number: it makes the line of cadence_signed, and adds it like cadence_add_line. A line
 * of more than 512 bytes is kept after a flush of the sums. */
static inline uint32_t cadence_add_whole(cadence_sums *sums, cadence_handle *handle, const cadence_settings *settings,
                                         uint32_t kind, const char *key, int64_t value,
                                         const cadence_options *options) {
    const cadence_options none = CADENCE_NO_OPTIONS;
    const cadence_settings nothing = CADENCE_NO_SETTINGS;
    uint8_t line[512];
    size_t length;
    uint32_t status = cadence_format_signed(settings != CADENCE_NULL ? settings : &nothing, kind, CADENCE_BYTES(key),
                                            cadence_length_of(key), &value, 1,
                                            options != CADENCE_NULL ? options : &none, line, sizeof line, &length);
    if (status == CADENCE_OK) return cadence_add_line(sums, handle, line, length);
    if (status == CADENCE_TOO_SMALL) status = cadence_flush_sums(sums, handle);
    return status != CADENCE_OK ? status : cadence_whole(handle, settings, kind, key, value, options);
}

/* Adds up a metric of one double, like cadence_floating, in the same way. */
static inline uint32_t cadence_add_double(cadence_sums *sums, cadence_handle *handle, const cadence_settings *settings,
                                          uint32_t kind, const char *key, double value,
                                          const cadence_options *options) {
    const cadence_options none = CADENCE_NO_OPTIONS;
    const cadence_settings nothing = CADENCE_NO_SETTINGS;
    uint8_t line[512];
    size_t length;
    uint32_t status = cadence_format_floating(settings != CADENCE_NULL ? settings : &nothing, kind, CADENCE_BYTES(key),
                                              cadence_length_of(key), &value, 1,
                                              options != CADENCE_NULL ? options : &none, line, sizeof line, &length);
    if (status == CADENCE_OK) return cadence_add_line(sums, handle, line, length);
    if (status == CADENCE_TOO_SMALL) status = cadence_flush_sums(sums, handle);
    return status != CADENCE_OK ? status : cadence_double(handle, settings, kind, key, value, options);
}

/* Makes the key of a counter or a gauge for cadence_add_number, like cadence_make_key. Returns what
 * cadence_format_signed and cadence_make_key return: CADENCE_TOO_SMALL if its line has more than 512 bytes. */
static inline uint32_t cadence_key_of(cadence_sums *sums, const cadence_settings *settings, uint32_t kind,
                                      const char *name, const cadence_options *options, size_t *key) {
    const cadence_options none = CADENCE_NO_OPTIONS;
    const cadence_settings nothing = CADENCE_NO_SETTINGS;
    const int64_t value = 0;
    uint8_t line[512];
    size_t length;
    const uint32_t status = cadence_format_signed(settings != CADENCE_NULL ? settings : &nothing, kind,
                                                  CADENCE_BYTES(name), cadence_length_of(name), &value, 1,
                                                  options != CADENCE_NULL ? options : &none, line, sizeof line,
                                                  &length);
    return status != CADENCE_OK ? status : cadence_make_key(sums, line, length, key);
}

/* Adds up a line that the host has made, like cadence_add_line. */
static inline uint32_t cadence_add_raw(cadence_sums *sums, cadence_handle *handle, const char *line) {
    return cadence_add_line(sums, handle, CADENCE_BYTES(line), cadence_length_of(line));
}

#ifdef __cplusplus
}

/* Keeps a metric of one number: of a double or a float by cadence_double, of an unsigned integer of 64 bits by
 * cadence_natural, and of another integer by cadence_whole. */
template <typename T, bool is_floating, bool is_natural> struct cadence_number_of {
    static inline uint32_t keep(cadence_handle *handle, const cadence_settings *settings, uint32_t kind, const char *key,
                                T value, const cadence_options *options) {
        return cadence_whole(handle, settings, kind, key, static_cast<int64_t>(value), options);
    }
};
template <typename T> struct cadence_number_of<T, true, false> {
    static inline uint32_t keep(cadence_handle *handle, const cadence_settings *settings, uint32_t kind, const char *key,
                                T value, const cadence_options *options) {
        return cadence_double(handle, settings, kind, key, static_cast<double>(value), options);
    }
};
template <typename T> struct cadence_number_of<T, false, true> {
    static inline uint32_t keep(cadence_handle *handle, const cadence_settings *settings, uint32_t kind, const char *key,
                                T value, const cadence_options *options) {
        return cadence_natural(handle, settings, kind, key, static_cast<uint64_t>(value), options);
    }
};
template <typename T>
inline uint32_t cadence_number(cadence_handle *handle, const cadence_settings *settings, uint32_t kind, const char *key,
                               T value, const cadence_options *options) {
    return cadence_number_of<T, std::is_floating_point<T>::value,
                             std::is_unsigned<T>::value && sizeof(T) >= sizeof(uint64_t)>::keep(handle, settings, kind,
                                                                                               key, value, options);
}
#define CADENCE_KEEPS(name, kind)                                                                                      \
    template <typename T>                                                                                              \
    inline uint32_t name(cadence_handle *handle, const cadence_settings *settings, const char *key, T value,           \
                         const cadence_options *options) {                                                             \
        return cadence_number(handle, settings, kind, key, value, options);                                            \
    }
#elif defined(__STDC_VERSION__) && __STDC_VERSION__ >= 201112L
/* Keeps a metric of one number: of a double or a float by cadence_double, of an unsigned integer of 64 bits by
 * cadence_natural, and of another integer by cadence_whole. */
#define CADENCE_NUMBER(value)                                                                                          \
    _Generic((value), float: cadence_double, double: cadence_double, long double: cadence_double,                      \
             unsigned long: cadence_natural, unsigned long long: cadence_natural, default: cadence_whole)
#define cadence_number(handle, settings, kind, key, value, options) \
    CADENCE_NUMBER(value)(handle, settings, kind, key, value, options)
#else
/* Keeps a metric of one integer, whose bits these are, by cadence_natural if its type is unsigned and otherwise by
 * cadence_whole. */
static inline uint32_t cadence_integer(cadence_handle *handle, const cadence_settings *settings, uint32_t kind,
                                       const char *key, uint64_t bits, bool is_unsigned,
                                       const cadence_options *options) {
    return is_unsigned ? cadence_natural(handle, settings, kind, key, bits, options)
                       : cadence_whole(handle, settings, kind, key, (int64_t)bits, options);
}
/* C99 can't choose a call by the type of a value. A double does not compile here, because of the |: write
 * cadence_double. */
#define cadence_number(handle, settings, kind, key, value, options)                                                    \
    cadence_integer(handle, settings, kind, key, (uint64_t)(0 | (value)), (__typeof__(0 | (value)))-1 > 0, options)
#endif

/* These keep a metric of one number, an integer of up to 64 bits or (from C11 and in C++) a double. Each returns what
 * cadence_floating returns. cadence_count adds to a counter, cadence_gauge sets a gauge, cadence_change changes a gauge
 * by the number, cadence_time_millis keeps a time in milliseconds with up to six places of a double, and
 * cadence_distribute adds a value to a distribution. Many servers read a gauge below 0 as a change of the gauge:
 * cadence_level_whole and cadence_level_double set it. */
#ifdef __cplusplus
CADENCE_KEEPS(cadence_count, CADENCE_COUNTER)
CADENCE_KEEPS(cadence_gauge, CADENCE_GAUGE)
CADENCE_KEEPS(cadence_change, CADENCE_CHANGE)
CADENCE_KEEPS(cadence_time_millis, CADENCE_TIMER)
CADENCE_KEEPS(cadence_distribute, CADENCE_DISTRIBUTION)
#undef CADENCE_KEEPS
#else
#define cadence_count(handle, settings, key, value, options)                                                           \
    cadence_number(handle, settings, CADENCE_COUNTER, key, value, options)
#define cadence_gauge(handle, settings, key, value, options)                                                           \
    cadence_number(handle, settings, CADENCE_GAUGE, key, value, options)
#define cadence_change(handle, settings, key, value, options)                                                          \
    cadence_number(handle, settings, CADENCE_CHANGE, key, value, options)
#define cadence_time_millis(handle, settings, key, value, options)                                                     \
    cadence_number(handle, settings, CADENCE_TIMER, key, value, options)
#define cadence_distribute(handle, settings, key, value, options)                                                      \
    cadence_number(handle, settings, CADENCE_DISTRIBUTION, key, value, options)
#endif

#endif
