/* SPDX-License-Identifier: Apache-2.0 OR MIT */
/* events FILE: makes the lines of events and of service checks by the rows of a file, events.rows, and makes calls that no
 * row has. It prints each row of which the library says something else, and its exit status is then 1. */
#include <cadence.h>
#include <stdio.h>
#include <stdlib.h>
#include <string.h>

enum { LONGEST = 1024, TAGS = 8, FIELDS = 16 };

static const char *const unfit[] = { "name", "host", "key", "source", "tag", "container", "message" };
static const char *const priorities[] = { "", "low", "normal" };
static const char *const alerts[] = { "", "error", "warning", "info", "success" };
static const char *const statuses[] = { "ok", "warning", "critical", "unknown" };

/* The fields of a row, and the tags and the container of its client. */
static struct {
    bool is_event;
    cadence_event_data event;
    cadence_check_data check;
    cadence_tag tags[TAGS], defaults[TAGS];
    size_t tags_len, defaults_len;
    const char *container;
    bool is_cleaned;
    char texts[FIELDS][LONGEST];
    size_t texts_len;
} call;

static void fail(const char *what) {
    printf("%s\n", what);
    exit(1);
}

/* Stores a text in which `\n` is a newline and `\xHH` the byte of this number, and returns it. */
static char *unescaped(const char *from, const char *end) {
    char *const text = call.texts[call.texts_len++], *to = text;
    if (call.texts_len == FIELDS) fail("a row has too many fields");
    while (from < end) {
        const char next = *from == '\\' ? from[1] : '\0';
        if (next == 'n') *to++ = '\n', from += 2;
        else if (next == 'x') {
            const char hex[] = { from[2], from[3], '\0' };
            *to++ = (char)strtoul(hex, NULL, 16), from += 4;
        } else *to++ = *from++;
    }
    *to = '\0';
    return text;
}

/* Returns the number of a text in a list. */
static uint32_t number_in(const char *const *list, size_t len, const char *text) {
    for (uint32_t i = 0; i < len; i++)
        if (strcmp(list[i], text) == 0) return i;
    fail(text);
    return 0;
}

static cadence_tag tag_of(char *text) {
    char *const equals = strchr(text, '=');
    if (equals == NULL) return cadence_tag_of(NULL, text);
    *equals = '\0';
    return cadence_tag_of(text, equals + 1);
}

/* Sets a field of the event and of the service check. */
static void set_field(const char *field, char *text) {
    const uint8_t *const at = (const uint8_t *)text;
    const size_t len = strlen(text);
#define IN(list) number_in(list, sizeof list / sizeof list[0], text)
    if (strcmp(field, "title") == 0) call.event.title = at, call.event.title_len = len;
    else if (strcmp(field, "text") == 0) call.event.text = at, call.event.text_len = len;
    else if (strcmp(field, "name") == 0) call.check.name = at, call.check.name_len = len;
    else if (strcmp(field, "message") == 0) call.check.message = at, call.check.message_len = len;
    else if (strcmp(field, "key") == 0) call.event.key = at, call.event.key_len = len;
    else if (strcmp(field, "source") == 0) call.event.source = at, call.event.source_len = len;
    else if (strcmp(field, "priority") == 0) call.event.priority = IN(priorities);
    else if (strcmp(field, "alert") == 0) call.event.alert = IN(alerts);
    else if (strcmp(field, "status") == 0) call.check.status = IN(statuses);
    else if (strcmp(field, "host") == 0) {
        call.event.host = call.check.host = at;
        call.event.host_len = call.check.host_len = len;
    } else if (strcmp(field, "container") == 0) {
        call.event.container = call.check.container = at;
        call.event.container_len = call.check.container_len = len;
    } else if (strcmp(field, "time") == 0) {
        call.event.time = call.check.time = strtoull(text, NULL, 10);
        call.event.timed = call.check.timed = true;
    } else if (strcmp(field, "tag") == 0) call.tags[call.tags_len++] = tag_of(text);
    else if (strcmp(field, "default_tag") == 0) call.defaults[call.defaults_len++] = tag_of(text);
    else if (strcmp(field, "default_container") == 0) call.container = text;
    else if (strcmp(field, "cleaned") == 0) call.is_cleaned = true;
    else fail(field);
}

/* Reads what a row has after its arrow: `event` or `check`, and fields, each after ` & `. */
static void read_call(char *text) {
    const cadence_event_data no_event = CADENCE_NO_EVENT;
    const cadence_check_data no_check = CADENCE_NO_CHECK;
    memset(&call, 0, sizeof call);
    call.event = no_event;
    call.check = no_check;
    call.is_event = strncmp(text, "event", 5) == 0;
    for (char *next = strstr(text, " & "); next != NULL;) {
        char *const field = next + 3, *const equals = strchr(field, '=');
        next = strstr(field, " & ");
        *equals = '\0';
        set_field(field, unescaped(equals + 1, next != NULL ? next : equals + 1 + strlen(equals + 1)));
    }
    call.event.tags = call.check.tags = call.tags;
    call.event.tags_len = call.check.tags_len = call.tags_len;
}

static uint32_t keep(cadence_handle *client, const cadence_settings *settings) {
    return call.is_event ? cadence_event(client, settings, &call.event)
                         : cadence_service_check(client, settings, &call.check);
}

/* Writes what a call says as a row has it. A client whose packets have no room makes a packet of each line. */
static void say(char *to) {
    uint8_t room[LONGEST];
    size_t len;
    cadence_settings settings = CADENCE_NO_SETTINGS;
    cadence_handle client = CADENCE_CLOSED;
    cadence_counts_of counts;
    uint32_t status = call.is_cleaned
        ? cadence_settings_make_cleaned(&settings, "no.prefix", call.defaults, call.defaults_len, call.container, room, sizeof room, &len)
        : cadence_settings_make(&settings, "no.prefix", call.defaults, call.defaults_len, call.container, true, room, sizeof room, &len);
    if (status == CADENCE_OK) status = cadence_open(&client, 0, 2, CADENCE_REFUSE);
    if (status == CADENCE_OK) status = keep(&client, &settings);
    if (cadence_counts(&client, &counts) != CADENCE_OK || counts.made != (status == CADENCE_OK) || counts.held != 0)
        fail("a client counts something else");
    if (status == CADENCE_OK) status = cadence_next(&client, (uint8_t *)to, 4 * LONGEST, &len);
    if (status == CADENCE_OK) to[len] = '\0';
    else if (status >= CADENCE_UNFIT_NAME && status <= CADENCE_UNFIT_MESSAGE)
        sprintf(to, "refuses %s", unfit[status - CADENCE_UNFIT_NAME]);
    else sprintf(to, "status %u", status);
    cadence_free(&client);
}


/* Calls that no row has: how lines are packed and held, and the statuses of calls that keep nothing. */
static void test_statuses(void) {
    const cadence_settings nothing = CADENCE_NO_SETTINGS;
    cadence_settings wrong = CADENCE_NO_SETTINGS;
    cadence_handle client = CADENCE_CLOSED;
    cadence_event_data event = cadence_event_of("Deploy", "version 2.1");
    cadence_check_data check = cadence_check_of("web", CADENCE_SERVICE_CRITICAL, "no answer");
    const cadence_tag bad = cadence_tag_of("k", "\xff");
    uint8_t held[256];
    size_t len;
#define WANT(call, wanted) do { if ((call) != (wanted)) fail(#call " isn't " #wanted); } while (0)
    WANT(cadence_event(&client, &nothing, &event), CADENCE_NO_CLIENT);
    WANT(cadence_service_check(&client, &nothing, &check), CADENCE_NO_CLIENT);
    WANT(cadence_open(&client, 64, 2, CADENCE_REFUSE), CADENCE_OK);
    WANT(cadence_event(&client, &nothing, &event), CADENCE_OK);
    WANT(cadence_service_check(&client, &nothing, &check), CADENCE_OK);
    event.priority = 3;
    WANT(cadence_event(&client, &nothing, &event), CADENCE_INVALID);
    event.priority = CADENCE_PRIORITY_LOW, event.alert = 5;
    WANT(cadence_event(&client, &nothing, &event), CADENCE_INVALID);
    event.alert = CADENCE_ALERT_ERROR, event.tags = &bad, event.tags_len = 1;
    WANT(cadence_event(&client, &nothing, &event), CADENCE_NOT_UTF8);
    event.tags_len = 0, event.source = (const uint8_t *)"\xff", event.source_len = 1;
    WANT(cadence_event(&client, &nothing, &event), CADENCE_NOT_UTF8);
    check.status = 4;
    WANT(cadence_service_check(&client, &nothing, &check), CADENCE_INVALID);
    check.status = CADENCE_SERVICE_OK, check.message = (const uint8_t *)"\xc3", check.message_len = 1;
    WANT(cadence_service_check(&client, &nothing, &check), CADENCE_NOT_UTF8);
    wrong.tags = (const uint8_t *)"\xff", wrong.tags_len = 1;
    check = cadence_check_of("web", CADENCE_SERVICE_OK, NULL);
    WANT(cadence_service_check(&client, &wrong, &check), CADENCE_NOT_UTF8);
    WANT(cadence_held(&client, held, sizeof held, &len), CADENCE_OK);
    const char both[] = "_e{6,11}:Deploy|version 2.1\n_sc|web|2|m:no answer\n";
    if (len != strlen(both) || memcmp(held, both, len) != 0) fail("the held text is something else");
    cadence_free(&client);
    for (uint32_t status = CADENCE_UNFIT_NAME; status <= CADENCE_UNFIT_MESSAGE; status++)
        if (strstr(cadence_status_text(status), "CADENCE_UNFIT_") == NULL) fail("a status has no text");
}

int main(int argc, char **argv) {
    static char row[LONGEST], said[4 * LONGEST], wanted[LONGEST];
    FILE *file = argc == 2 ? fopen(argv[1], "r") : NULL;
    int rows = 0, failures = 0;
    if (file == NULL) return 2;
    while (fgets(row, sizeof row, file) != NULL) {
        row[strcspn(row, "\n")] = '\0';
        char *const arrow = strstr(row, " <- ");
        if (row[0] == '#' || arrow == NULL) continue;
        *arrow = '\0';
        read_call(arrow + 4);
        strcpy(wanted, unescaped(row, arrow));
        say(said);
        rows++;
        if (strcmp(wanted, said) != 0) failures++, printf("%s\n  is %s\n", row, said);
    }
    test_statuses();
    printf("%d rows, %d differ\n", rows, failures);
    return failures != 0 || rows < 80;
}
