/* SPDX-License-Identifier: Apache-2.0 OR MIT */
/* environment FILE CONTAINERS ENRICHMENTS: tests what the variables of the environment say by the rows of a file,
 * environment.rows, the container of a process by those of containers.rows, and the external data and the cardinality of
 * the variables by those of enrichments.rows. It prints each row of which the library says something else, and its exit
 * status is then 1. */
#include <cadence.h>
#include <stdio.h>
#include <stdlib.h>
#include <string.h>

enum { LONGEST = 4096, ORIGIN = 15, VARIABLES = 20 };

static char values[VARIABLES][LONGEST];
static bool is_set[VARIABLES];

/* Returns the value of a variable of the row, as getenv does. */
static char *value_of(const char *name) {
    for (uint32_t i = 0; i < VARIABLES; i++)
        if (is_set[i] && strcmp(name, cadence_variable_name(i)) == 0) return values[i];
    return NULL;
}

/* Copies a text in which `\n` is a newline and `\xHH` the byte of this number. */
static void unescape(char *to, const char *from, size_t len) {
    const char *end = from + len;
    while (from < end) {
        const char next = *from == '\\' ? from[1] : '\0';
        if (next == 'n') *to++ = '\n', from += 2;
        else if (next == 'x') {
            const char hex[] = { from[2], from[3], '\0' };
            *to++ = (char)strtoul(hex, NULL, 16), from += 4;
        } else *to++ = *from++;
    }
    *to = '\0';
}

/* Sets the variables of a row: NAME=VALUE, with ` & ` between each two. Returns false if a name is unknown. */
static bool set_variables(const char *text) {
    memset(is_set, 0, sizeof is_set);
    while (*text != '\0') {
        const char *equals = strchr(text, '='), *end = strstr(text, " & ");
        uint32_t i = 0;
        if (equals == NULL) return false;
        if (end == NULL) end = text + strlen(text);
        while (i < VARIABLES && strncmp(text, cadence_variable_name(i), (size_t)(equals - text)) != 0) i++;
        if (i == VARIABLES) return false;
        unescape(values[i], equals + 1, (size_t)(end - equals - 1));
        is_set[i] = true;
        text = *end != '\0' ? end + 3 : end;
    }
    return true;
}

/* Writes the tags of a tags' text as a row has them, each after ` | `, with `=` for its first colon. */
static void put_tags(char *to, const char *text, size_t len) {
    bool keyed = false;
    for (size_t i = len != 0 ? 1 : 0; i < len; i++) {
        if (text[i] == '#' && i == 1) to += sprintf(to, " | ");
        else if (text[i] == ',') to += sprintf(to, " | "), keyed = false;
        else if (text[i] == ':' && !keyed) *to++ = '=', keyed = true;
        else *to++ = text[i];
    }
    *to = '\0';
}

/* Writes a status that isn't CADENCE_OK as a row has it. */
static void say_status(char *to, uint32_t status, uint32_t variable) {
    uint8_t words[256];
    size_t len;
    if (status == CADENCE_VARIABLE && cadence_variable_text(variable, words, sizeof words, &len) == CADENCE_OK
        && memcmp(words, cadence_variable_name(variable), strlen(cadence_variable_name(variable))) == 0)
        sprintf(to, "refuses %s", cadence_variable_name(variable));
    else sprintf(to, "status %u", status);
}

/* Writes what the variables say as a row has it, and returns whether all names of variables are known. */
static bool say(char *to, char *given) {
    if (!set_variables(given)) return false;
    uint8_t place[256], tags[LONGEST], prefix[256];
    size_t place_len, tags_len, prefix_len, id_len, capacity = 0;
    uint16_t port = 1;
    bool only_ipv6 = true;
    uint32_t variable = VARIABLES;
    const cadence_variables variables = cadence_variables_of(value_of);
    uint32_t status = cadence_destination(&variables, place, sizeof place, &place_len, &port, &capacity, &only_ipv6, &variable);
    if (status == CADENCE_OK)
        status = cadence_environment_prefix(&variables, prefix, sizeof prefix, &prefix_len, &variable);
    if (status == CADENCE_OK)
        status = cadence_environment_tags(&variables, tags, sizeof tags, &tags_len, &variable);
    if (status == CADENCE_OK)
        status = cadence_environment_container(&variables, NULL, 0, 0, NULL, 0, &id_len, &variable);
    if (status != CADENCE_OK) say_status(to, status, variable);
    else {
        to += port != 0 ? sprintf(to, "udp %.*s %u", (int)place_len, (char *)place, port)
                        : sprintf(to, place_len != 0 ? "unix %.*s" : "nowhere%.*s", (int)place_len, (char *)place);
        if (capacity != (port != 0 ? 1432 : 8192)) to += sprintf(to, " %zu", capacity);
        if (only_ipv6) to += sprintf(to, " over IPv6");
        if (prefix_len != 0) to += sprintf(to, " as %.*s", (int)prefix_len, (char *)prefix);
        put_tags(to, (char *)tags, tags_len);
    }
    return true;
}

/* Writes what the library says of a row of containers.rows, whose number and text these are, as the row has it. */
static bool say_container(char *to, char *given) {
    static char text[LONGEST];
    uint8_t id[128];
    size_t len = 1;
    uint32_t variable = VARIABLES;
    char *end;
    const uint64_t inode = strtoull(given, &end, 10);
    unescape(text, end + 1, strlen(end + 1));
    memset(is_set, 0, sizeof is_set);
    const cadence_variables off = cadence_variables_of(value_of);
    is_set[ORIGIN] = true;
    strcpy(values[ORIGIN], "true");
    const cadence_variables on = cadence_variables_of(value_of);
    uint32_t status = cadence_environment_container(&off, CADENCE_BYTES(text), strlen(text), inode, id, sizeof id, &len, &variable);
    if (status == CADENCE_OK && len == 0)
        status = cadence_environment_container(&on, CADENCE_BYTES(text), strlen(text), inode, id, sizeof id, &len, &variable);
    if (status != CADENCE_OK) say_status(to, status, variable);
    else sprintf(to, len != 0 ? "%.*s" : "none%.*s", (int)len, (char *)id);
    return true;
}

/* Writes what the variables say as a row of enrichments.rows has it: the default external data, those if a client wants
 * them, and the default cardinality. Returns whether all names of variables are known. */
static bool say_enrichment(char *to, char *given) {
    static const char *const words[] = { "-", "none", "low", "orchestrator", "high" };
    uint8_t text[LONGEST];
    size_t len;
    uint32_t variable = VARIABLES, cardinality = VARIABLES;
    char *at = to;
    if (!set_variables(given)) return false;
    cadence_variables variables = cadence_variables_of(value_of);
    uint32_t status = cadence_environment_tags(&variables, text, sizeof text, &len, &variable);
    for (int is_wanted = 0; is_wanted < 2 && status == CADENCE_OK; is_wanted++) {
        status = cadence_environment_external(&variables, text, sizeof text, &len, &variable);
        if (status == CADENCE_OK) at += sprintf(at, len != 0 ? "%.*s | " : "-%.*s | ", (int)len, (char *)text);
        variables.origin = CADENCE_BYTES("1");
        variables.origin_len = 1;
    }
    if (status == CADENCE_OK) status = cadence_environment_cardinality(&variables, &cardinality, &variable);
    if (status != CADENCE_OK) say_status(to, status, variable);
    else sprintf(at, "%s", words[cardinality]);
    return true;
}

/* Tests each row of a file, and returns how many differ, or -1 if fewer rows than these are there or a variable is unknown.
 * `say_row` writes what the library says of the words behind the arrow of a row. */
static int test_rows(const char *name, int least, bool (*say_row)(char *to, char *given)) {
    static char row[LONGEST], wanted[LONGEST], said[2 * LONGEST];
    FILE *file = fopen(name, "r");
    int rows = 0, failures = 0;
    if (file == NULL) return -1;
    while (fgets(row, sizeof row, file) != NULL) {
        row[strcspn(row, "\n")] = '\0';
        if (row[0] == '\0' || row[0] == '#') continue;
        char *arrow = strstr(row, " <- ");
        if (strstr(row, "\\x00") != NULL) continue; /* the environment of a process has no such byte */
        if (arrow != NULL) *arrow = '\0';
        if (!say_row(said, arrow != NULL ? arrow + 4 : row + strlen(row))) return -1;
        unescape(wanted, row, strlen(row));
        rows++;
        if (strcmp(wanted, said) != 0) failures++, printf("%s <- %s\n  is %s\n", row, arrow != NULL ? arrow + 4 : "", said);
    }
    fclose(file);
    printf("%d rows, %d differ\n", rows, failures);
    return rows < least ? -1 : failures;
}

int main(int argc, char **argv) {
    if (argc != 4) return 2;
    const int variables = test_rows(argv[1], 250, say), containers = test_rows(argv[2], 45, say_container);
    const int enrichments = test_rows(argv[3], 60, say_enrichment);
    return variables != 0 || containers != 0 || enrichments != 0;
}
