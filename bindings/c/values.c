/* SPDX-License-Identifier: Apache-2.0 OR MIT */
/* values FILE: makes the lines of members of sets, of changes of gauges, of gauges that may be below 0, and of calls with
 * separators in their texts, by the rows of a file, values.rows. It prints each row of which the library says something else, and its exit status is then 1. */
#include <cadence.h>
#include <errno.h>
#include <stdio.h>
#include <stdlib.h>

enum { LONGEST = 512 };

/* Returns the text up to this end, in which `\n` is a newline. */
static const char *unescaped(const char *from, const char *end) {
    static char text[LONGEST];
    char *to = text;
    for (; from < end; from++) {
        const bool is_newline = from[0] == '\\' && from + 1 < end && from[1] == 'n';
        *to++ = is_newline ? '\n' : *from;
        from += is_newline;
    }
    *to = '\0';
    return text;
}

/* Makes a call with the number that a text says. */
static uint32_t keep_number(cadence_handle *client, const cadence_settings *settings, bool is_change, const char *key,
                            const char *text) {
    if (strpbrk(text, ".n") != NULL) {
        const double number = strtod(text, NULL);
        return is_change ? cadence_double(client, settings, CADENCE_CHANGE, key, number, NULL)
                         : cadence_level_double(client, settings, key, number, NULL);
    }
    errno = 0;
    const int64_t whole = strtoll(text, NULL, 10);
    if (errno == ERANGE)
        return cadence_natural(client, settings, is_change ? CADENCE_CHANGE : CADENCE_GAUGE, key, strtoull(text, NULL, 10), NULL);
    return is_change ? cadence_change(client, settings, key, whole, NULL)
                     : cadence_level_whole(client, settings, key, whole, NULL);
}

/* Counts a visit with a tag, or in a container. */
static uint32_t keep_visit(cadence_handle *client, const cadence_settings *settings, const char *kind, const char *first,
                           const char *rest) {
    const bool is_container = strncmp(kind, "container ", 10) == 0;
    const cadence_tag tag = strncmp(kind, "tag ", 4) == 0 ? cadence_tag_of(first, rest) : cadence_tag_of(NULL, first);
    cadence_options options = cadence_options_of(&tag, is_container ? 0 : 1);
    options.contained = is_container;
    options.container = (const uint8_t *)first, options.container_len = strlen(first);
    return cadence_count(client, settings, "visits", 1, &options);
}

/* Makes the call of a row: its kind, its first word, and the rest of the row. */
static uint32_t keep(cadence_handle *client, const cadence_settings *settings, const char *kind, const char *first,
                     const char *rest) {
    if (strncmp(kind, "member ", 7) == 0) return cadence_set_text(client, settings, first, rest, NULL);
    if (strncmp(kind, "count ", 6) == 0) return cadence_count(client, settings, first, strtoll(rest, NULL, 10), NULL);
    if (strncmp(kind, "tag", 3) == 0 || strncmp(kind, "container ", 10) == 0)
        return keep_visit(client, settings, kind, first, rest);
    return keep_number(client, settings, strncmp(kind, "change ", 7) == 0, first, rest);
}

/* Writes what the library says of a call. */
static void say(char *call, char *said) {
    static uint8_t room[LONGEST];
    const cadence_tag env = cadence_tag_of("env", "prod");
    const bool is_strict = strncmp(call, "strict ", 7) == 0, is_cleaned = strncmp(call, "clean ", 6) == 0;
    cadence_settings settings;
    cadence_handle client = CADENCE_CLOSED;
    size_t length = 0;
    char *const kind = call + (is_strict ? 7 : is_cleaned ? 6 : 0), *const first = strchr(kind, ' ') + 1;
    char *rest = strchr(first, ' ');
    if (rest != NULL) *rest++ = '\0';
    else rest = first + strlen(first);
    strcpy(said, "no client");
    const uint32_t made = is_cleaned
        ? cadence_settings_make_cleaned(&settings, "p", &env, 1, NULL, room, sizeof room, &length)
        : cadence_settings_make(&settings, "p", &env, 1, NULL, is_strict, room, sizeof room, &length);
    if (made != CADENCE_OK || cadence_open(&client, LONGEST, 2, CADENCE_REFUSE) != CADENCE_OK) return;
    const uint32_t status = keep(&client, &settings, kind, first, rest);
    cadence_held(&client, (uint8_t *)said, LONGEST, &length);
    if (status == CADENCE_OK && length != 0) said[length - 1] = '\0'; /* the newline after the line */
    else strcpy(said, status == CADENCE_OK || length != 0 ? "something else" : "refused");
    cadence_free(&client);
}

int main(int argc, char **argv) {
    static char row[LONGEST], call[LONGEST], said[LONGEST];
    FILE *const file = argc == 2 ? fopen(argv[1], "r") : NULL;
    int rows = 0, failures = 0;
    if (file == NULL) return 2;
    while (fgets(row, sizeof row, file) != NULL) {
        row[strcspn(row, "\n")] = '\0';
        char *const arrow = strstr(row, " <- ");
        if (row[0] == '#' || arrow == NULL) continue;
        *arrow = '\0';
        strcpy(call, unescaped(arrow + 4, arrow + 4 + strlen(arrow + 4)));
        say(call, said);
        rows++;
        if (strcmp(unescaped(row, arrow), said) != 0) failures++, printf("%s\n  is %s\n", row, said);
    }
    printf("%d rows, %d differ\n", rows, failures);
    return failures != 0 || rows < 70;
}
