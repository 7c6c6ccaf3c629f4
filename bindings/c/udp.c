/* SPDX-License-Identifier: Apache-2.0 OR MIT */
/* udp FOLDER ROWS: tests cadence_udp.c with sockets of its own, and with Unix sockets in a folder. ROWS is
 * bindings/addresses.rows. It prints each check that fails, and its exit status is then 1. */
#define _GNU_SOURCE
#include "names.h"
#include <cadence_udp.h>
#include <fcntl.h>
#include <limits.h>
#include <pthread.h>
#include <stdio.h>
#include <sys/un.h>
#include <unistd.h>

#define CHECK(holds) ((holds) ? (void)0 : fail(#holds, __LINE__))

enum { HOUR = 3600000 };

static const int64_t SECOND = 1000000000;

static int failures;

static void fail(const char *what, int line) {
    printf("udp.c:%d: %s\n", line, what);
    failures++;
}

/* Returns whether the next datagram of a server, if one waits, is this text. */
static bool gets(int server, const char *text) {
    char got[2048];
    const ssize_t n = recv(server, got, sizeof got, MSG_DONTWAIT);
    const bool same = n == (ssize_t)strlen(text) && memcmp(got, text, (size_t)n) == 0;
    if (!same) printf("%.*s in place of %s\n", n < 0 ? 0 : (int)n, got, text);
    return same;
}

static bool gets_nothing(int server) {
    char got[1];
    return recv(server, got, sizeof got, MSG_DONTWAIT) < 0;
}

/* Returns a socket at an address and a port, or at a port of the system's choice if that is 0, or -1. */
static int server_at(const char *address, uint16_t *port) {
    char text[8];
    snprintf(text, sizeof text, "%u", *port);
    struct addrinfo *const at = entry_of(address, text);
    const int server = socket(at->ai_family, SOCK_DGRAM, 0);
    const bool bound = bind(server, at->ai_addr, at->ai_addrlen) == 0 && getsockname(server, at->ai_addr, &at->ai_addrlen) == 0;
    *port = ntohs(((struct sockaddr_in *)at->ai_addr)->sin_port);
    freeaddrinfo(at);
    return bound ? server : (close(server), -1);
}

static bool keeps(cadence_udp *out, const char *key, int value) {
    return cadence_count(&out->client, NULL, key, value, NULL) == CADENCE_OK;
}

/* Keeps a line, and returns how many packets wait after it was flushed. */
static size_t flushed(cadence_udp *out, const char *key, int value) {
    CHECK(keeps(out, key, value));
    return cadence_udp_flush(out);
}

static void by_host(void) {
    static char key[70000];
    uint16_t port = 0;
    const int server = server_at("127.0.0.1", &port);
    cadence_udp out = CADENCE_UDP_CLOSED;
    CHECK(cadence_udp_connect(&out, "no.such.host", port, 16, 1000) != NULL && out.socket == NULL && !out.client.open);
    CHECK(strncmp(out.fault, "no.such.host: ", 14) == 0);
    CHECK(cadence_udp_connect(&out, "127.0.0.1", 0, 16, 1000) != NULL && strcmp(out.fault, "127.0.0.1: the port is 0") == 0);
    CHECK(cadence_udp_connect(&out, "127.0.0.1", port, SIZE_MAX, 1000) != NULL && out.socket == NULL);
    CHECK(cadence_udp_connect(&out, "127.0.0.1", port, 16, HOUR) == NULL);
    for (int i = 1; i <= 3; i++) CHECK(keeps(&out, "p.b", i) && cadence_udp_send(&out) == 0);
    CHECK(gets(server, "p.b:1|c\np.b:2|c\n") && gets_nothing(server));
    memset(key, 'x', sizeof key - 1);
    CHECK(keeps(&out, key, 1) && cadence_udp_send(&out) == 0);
    CHECK(gets(server, "p.b:3|c\n") && gets_nothing(server) && out.too_long == 1);
    CHECK(keeps(&out, "c", 1));
    cadence_udp_close(&out);
    CHECK(gets(server, "c:1|c\n") && out.socket == NULL && !out.client.open);
    cadence_udp_close(&out);
    close(server);
}

/* The held text is sent as soon as it may be older than the period. */
static void by_time(void) {
    uint16_t port = 0;
    const int server = server_at("127.0.0.1", &port);
    cadence_udp out = CADENCE_UDP_CLOSED;
    CHECK(cadence_udp_connect(&out, "127.0.0.1", port, 512, 0) == NULL);
    CHECK(keeps(&out, "now", 1) && cadence_udp_send(&out) == 0 && gets(server, "now:1|c\n"));
    CHECK(cadence_udp_connect(&out, "127.0.0.1", port, 512, HOUR) == NULL && keeps(&out, "a", 1));
    later += HOUR / 2 * (SECOND / 1000);
    CHECK(cadence_udp_send(&out) == 0 && gets_nothing(server) && keeps(&out, "b", 1));
    later += HOUR / 2 * (SECOND / 1000);
    CHECK(cadence_udp_send(&out) == 0 && gets(server, "a:1|c\nb:1|c\n"));
    CHECK(keeps(&out, "c", 1) && cadence_udp_send(&out) == 0 && gets_nothing(server));
    cadence_udp_close(&out);
    close(server);
}

/* The five lines of README.md. Nobody has to receive what they send. */
static int five_lines(void) {
    const cadence_settings settings = cadence_settings_of("my.service.");
    cadence_udp out = CADENCE_UDP_CLOSED;
    if (cadence_udp_connect(&out, "127.0.0.1", 8125, 1432, 1000)) return 1;
    cadence_count(&out.client, &settings, "visits", 1, NULL);
    cadence_udp_close(&out);
    return 0;
}

/* A client of zeros is closed, and doesn't close a file that it hasn't opened. */
static void of_zeros(void) {
    cadence_udp out = { 0 };
    uint16_t port = 0;
    const int server = server_at("127.0.0.1", &port), input = dup(0), kept = open("/dev/null", O_RDONLY);
    dup2(kept, 0);
    CHECK(cadence_udp_send(&out) == 0 && cadence_udp_flush(&out) == 0);
    CHECK(cadence_udp_connect(&out, "127.0.0.1", port, 512, 1000) == NULL && fcntl(0, F_GETFD) >= 0);
    CHECK(flushed(&out, "a", 1) == 0 && gets(server, "a:1|c\n"));
    cadence_udp_close(&out);
    CHECK(fcntl(0, F_GETFD) >= 0);
    dup2(input, 0);
    close(input), close(kept), close(server);
}

#ifdef __SANITIZE_ADDRESS__ /* its threads need more */
static void small_stacks(void) {}
#else
static void *sends_a_line(void *port) {
    cadence_udp out = CADENCE_UDP_CLOSED;
    CHECK(cadence_udp_connect(&out, "127.0.0.1", *(uint16_t *)port, 512, HOUR) == NULL && keeps(&out, "small", 1));
    cadence_udp_close(&out);
    return NULL;
}

/* The library takes little of each thread's memory, so that a thread may have a small stack. */
static void small_stacks(void) {
    uint16_t port = 0;
    const int server = server_at("127.0.0.1", &port);
    pthread_attr_t small;
    pthread_t thread;
    const size_t least = PTHREAD_STACK_MIN, stack = least > 32 << 10 ? least : 32 << 10;
    CHECK(pthread_attr_init(&small) == 0 && pthread_attr_setstacksize(&small, stack) == 0);
    const int error = pthread_create(&thread, &small, sends_a_line, &port);
    CHECK(error == 0 && pthread_join(thread, NULL) == 0 && gets(server, "small:1|c\n"));
    pthread_attr_destroy(&small);
    close(server);
}
#endif

/* Makes a Unix socket anew. */
static int server_at_path(const char *path) {
    struct sockaddr_un at = { .sun_family = AF_UNIX };
    const int server = socket(AF_UNIX, SOCK_DGRAM, 0);
    snprintf(at.sun_path, sizeof at.sun_path, "%s", path);
    unlink(path);
    return bind(server, (struct sockaddr *)&at, sizeof at) == 0 ? server : -1;
}

/* An agent that isn't there yet, one that doesn't receive, and one that starts again. */
static void by_path(const char *path) {
    static char key[1 << 17];
    char long_path[200] = "";
    cadence_udp out = CADENCE_UDP_CLOSED;
    memset(long_path, '/', sizeof long_path - 1);
    CHECK(cadence_udp_connect_path(&out, "", 16, HOUR) != NULL && cadence_udp_connect_path(&out, long_path, 16, HOUR) != NULL);
    unlink(path);
    CHECK(cadence_udp_connect_path(&out, path, 16, HOUR) == NULL);
    CHECK(flushed(&out, "early", 1) == 1 && out.refused == 1);
    int server = server_at_path(path);
    CHECK(cadence_udp_send(&out) == 0 && gets(server, "early:1|c\n"));
    size_t waits = 0;
    for (int i = 0; i < 100000 && waits == 0; i++) waits = flushed(&out, "a", 1);
    CHECK(waits == 1 && out.refused == 2);
    while (!gets_nothing(server)) {}
    CHECK(cadence_udp_send(&out) == 0 && gets(server, "a:1|c\n"));
    close(server);
    for (int i = 1; i <= 70; i++) CHECK(flushed(&out, "away", i) == (size_t)(i < 64 ? i : 64));
    server = server_at_path(path);
    CHECK(flushed(&out, "back", 1) > 0 && gets(server, "away:8|c\n"));
    while (cadence_udp_send(&out) != 0) while (!gets_nothing(server)) {}
    while (!gets_nothing(server)) {}
    CHECK(flushed(&out, "on", 1) == 0 && gets(server, "on:1|c\n"));
    memset(key, 'x', sizeof key - 1);
    CHECK(flushed(&out, key, 1) == 0 && recv(server, key, sizeof key, MSG_TRUNC) == sizeof key + 3);
    cadence_udp_close(&out);
    close(server);
    unlink(path);
}

/* A name is looked up again after a minute, and a second after a refusal, and a lookup that fails keeps the address. */
static void by_name(void) {
    uint16_t port = 0;
    const int first = server_at("127.0.0.1", &port), second = server_at("127.0.0.2", &port);
    cadence_udp out = CADENCE_UDP_CLOSED;
    lookups = 0;
    CHECK(cadence_udp_connect(&out, "127.0.0.1", port, 512, HOUR) == NULL && flushed(&out, "a", 0) == 0 && gets(first, "a:0|c\n"));
    later += 61 * SECOND;
    CHECK(flushed(&out, "a", 1) == 0 && gets(first, "a:1|c\n") && lookups == 0);
    addresses = "127.0.0.1";
    CHECK(cadence_udp_connect(&out, "agent.test", port, 512, HOUR) == NULL && lookups == 1);
    addresses = "127.0.0.2";
    later += 60 * SECOND - 1;
    CHECK(flushed(&out, "a", 2) == 0 && gets(first, "a:2|c\n") && lookups == 1);
    later += 1;
    CHECK(flushed(&out, "a", 3) == 0 && gets(second, "a:3|c\n") && lookups == 2);
    addresses = "";
    later += 60 * SECOND;
    CHECK(flushed(&out, "a", 4) == 0 && gets(second, "a:4|c\n") && lookups == 3);
    addresses = "255.255.255.255"; /* the system refuses to send there */
    later += 60 * SECOND;
    CHECK(flushed(&out, "a", 5) == 1 && out.refused == 1 && lookups == 4);
    addresses = "127.0.0.1";
    later += SECOND - 1;
    CHECK(flushed(&out, "a", 6) == 2 && out.refused == 2 && lookups == 4);
    later += 1;
    CHECK(cadence_udp_send(&out) == 0 && gets(first, "a:5|c\n") && gets(first, "a:6|c\n") && lookups == 5);
    lookup_takes = 10 * SECOND;
    later += 60 * SECOND;
    CHECK(flushed(&out, "a", 7) == 0 && lookups == 6);
    lookup_takes = 0;
    later += 90 * SECOND - 1;
    CHECK(flushed(&out, "a", 8) == 0 && lookups == 6);
    later += 1;
    CHECK(flushed(&out, "a", 9) == 0 && lookups == 7 && keeps(&out, "a", 10));
    later += 61 * SECOND;
    cadence_udp_close(&out);
    CHECK(lookups == 7);
    close(first), close(second);
}

/* Of the addresses of a name, the one of the row is sent to, also if the name gets them later. */
static void by_rows(const char *path) {
    char row[256];
    FILE *const file = fopen(path, "r");
    int rows = 0;
    while (file != NULL && fgets(row, sizeof row, file) != NULL) {
        char *arrow = strstr(row, " -> ");
        if (row[0] == '#' || arrow == NULL) continue;
        *arrow = arrow[strcspn(arrow, "\n")] = '\0';
        uint16_t port = 0;
        const int server = server_at(arrow + 4, &port);
        rows++;
        if (server < 0) continue; /* there is no IPv6 here */
        cadence_udp out = CADENCE_UDP_CLOSED;
        for (int again = 0; again < 2; again++) {
            addresses = again ? "127.0.0.9" : row;
            CHECK(cadence_udp_connect(&out, "agent.test", port, 512, HOUR) == NULL);
            addresses = row;
            later += 60 * SECOND;
            CHECK(flushed(&out, "row", rows) == 0 && !gets_nothing(server));
        }
        cadence_udp_close(&out);
        close(server);
    }
    CHECK(rows >= 5);
    if (file != NULL) fclose(file);
}

/* Tests that a client of the environment whose capacity is 0 packs as many lines of 8 bytes as this many bytes have. */
static void by_capacity(int server, size_t most) {
    char wanted[8193], got[8193];
    cadence_udp out = CADENCE_UDP_CLOSED;
    for (size_t i = 0; i < most / 8; i++) memcpy(wanted + 8 * i, "abc:1|c\n", 8);
    CHECK(cadence_udp_connect_environment(&out, NULL, 0, HOUR) == NULL);
    for (size_t i = 0; i <= most / 8; i++) CHECK(keeps(&out, "abc", 1) && cadence_udp_send(&out) == 0);
    CHECK(recv(server, got, sizeof got, MSG_DONTWAIT) == (ssize_t)(most / 8 * 8) && memcmp(got, wanted, most / 8 * 8) == 0);
    cadence_udp_close(&out);
    CHECK(gets(server, "abc:1|c\n"));
}

static void by_environment(const char *path) {
    uint16_t port = 0;
    char text[256];
    int server = server_at("127.0.0.1", &port);
    cadence_udp out = CADENCE_UDP_CLOSED;
    snprintf(text, sizeof text, "udp://127.0.0.1:%u", port);
    setenv("DD_DOGSTATSD_URL", text, 1);
    setenv("DD_ENV", "prod", 1);
    setenv("DD_TAGS", "beta,k:v", 1);
    for (int dot = 0; dot < 2; dot++) {
        CHECK(cadence_udp_connect_environment(&out, dot ? "my.service." : "my.service", 64, HOUR) == NULL);
        CHECK(cadence_count(&out.client, &out.settings, "e", 1, NULL) == CADENCE_OK && cadence_udp_flush(&out) == 0);
        CHECK(gets(server, "my.service.e:1|c|#env:prod,beta,k:v\n"));
    }
    setenv("DD_TAGS", ":v", 1);
    const char *words = cadence_udp_connect_environment(&out, "p", 16, HOUR);
    CHECK(words != NULL && strncmp(words, "DD_TAGS wants ", 14) == 0 && out.socket == NULL && out.settings.tags == NULL);
    CHECK(unsetenv("DD_TAGS") == 0 && cadence_udp_connect_environment(&out, "\xff", 16, HOUR) != NULL);
    setenv("DD_DOGSTATSD_URL", "udp:", 1);
    words = cadence_udp_connect_environment(&out, "p", 16, HOUR);
    CHECK(words != NULL && strncmp(words, "DD_DOGSTATSD_URL wants ", 23) == 0 && out.socket == NULL);
    close(server);
    snprintf(text, sizeof text, "unix://%s", path);
    setenv("DD_DOGSTATSD_URL", text, 1);
    CHECK(unsetenv("DD_ENV") == 0 && cadence_udp_connect_environment(&out, NULL, 16, HOUR) == NULL);
    server = server_at_path(path);
    CHECK(cadence_count(&out.client, &out.settings, "e", 2, NULL) == CADENCE_OK && cadence_udp_flush(&out) == 0);
    CHECK(gets(server, "e:2|c\n"));
    setenv("DD_DOGSTATSD_DISABLE", "true", 1);
    for (int capacity = 0; capacity < 2; capacity++) {
        CHECK(cadence_udp_connect_environment(&out, "p", (size_t)capacity, HOUR) == NULL && out.socket != NULL);
        for (int i = 0; i < 100; i++)
            CHECK(cadence_count(&out.client, &out.settings, "e", 2, NULL) == CADENCE_OK && cadence_udp_send(&out) == 0);
        CHECK(cadence_udp_flush(&out) == 0 && gets_nothing(server) && out.refused == 0);
    }
    cadence_udp_close(&out);
    CHECK(unsetenv("DD_DOGSTATSD_DISABLE") == 0);
    by_capacity(server, 8192);
    close(server);
    server = server_at("127.0.0.1", &port);
    snprintf(text, sizeof text, "udp://127.0.0.1:%u", port);
    setenv("DD_DOGSTATSD_URL", text, 1);
    by_capacity(server, 1432);
    setenv("STATSD_MAXUDPSIZE", "100", 1);
    by_capacity(server, 100);
    CHECK(unsetenv("STATSD_MAXUDPSIZE") == 0);
    setenv("STATSD_PREFIX", "shop", 1);
    for (int given = 0; given < 3; given++) {
        const char *const prefixes[] = { NULL, "", "p" }, *const wanted[] = { "shop.e:1|c\n", "e:1|c\n", "p.e:1|c\n" };
        CHECK(cadence_udp_connect_environment(&out, prefixes[given], 0, HOUR) == NULL);
        CHECK(cadence_count(&out.client, &out.settings, "e", 1, NULL) == CADENCE_OK && cadence_udp_flush(&out) == 0);
        CHECK(gets(server, wanted[given]));
    }
    cadence_udp_close(&out);
    CHECK(unsetenv("STATSD_PREFIX") == 0);
    close(server);
    unlink(path);
}

/* Only addresses of IPv6 are looked up, if a variable says so, also later. */
static void by_ipv6(void) {
    uint16_t port = 0;
    char text[8];
    cadence_udp out = CADENCE_UDP_CLOSED;
    CHECK(unsetenv("DD_DOGSTATSD_URL") == 0);
    setenv("STATSD_IPV6", "1", 1);
    setenv("STATSD_HOST", "127.0.0.1", 1);
    CHECK(cadence_udp_connect_environment(&out, NULL, 512, HOUR) != NULL && out.socket == NULL);
    setenv("STATSD_HOST", "agent.test", 1);
    addresses = "127.0.0.1";
    CHECK(cadence_udp_connect_environment(&out, NULL, 512, HOUR) != NULL && out.socket == NULL);
    const int server = server_at("::1", &port);
    if (server >= 0) { /* there is IPv6 here */
        snprintf(text, sizeof text, "%u", port);
        setenv("STATSD_PORT", text, 1);
        addresses = "127.0.0.1 ::1";
        CHECK(cadence_udp_connect_environment(&out, NULL, 512, HOUR) == NULL && flushed(&out, "a", 1) == 0 && gets(server, "a:1|c\n"));
        addresses = "127.0.0.1";
        later += 60 * SECOND;
        CHECK(flushed(&out, "a", 2) == 0 && gets(server, "a:2|c\n"));
        cadence_udp_close(&out);
        close(server);
    }
    const char *const words[] = { "0", "six" };
    for (int i = 0; i < 2; i++) {
        setenv("STATSD_IPV6", words[i], 1);
        const char *const fault = cadence_udp_connect_environment(&out, NULL, 512, HOUR);
        CHECK(i == 0 ? fault == NULL : strncmp(fault, "STATSD_IPV6 wants ", 18) == 0);
    }
    cadence_udp_close(&out);
    CHECK(unsetenv("STATSD_IPV6") == 0 && unsetenv("STATSD_HOST") == 0 && unsetenv("STATSD_PORT") == 0);
}

/* A client that sends its own counts. */
static void by_telemetry(const char *path) {
    const cadence_settings settings = cadence_settings_of("t.");
    uint16_t port = 0;
    int server = server_at("127.0.0.1", &port);
    cadence_udp out = CADENCE_UDP_CLOSED;
    cadence_udp_telemetry(&out, &settings, 1);
    CHECK(cadence_udp_connect(&out, "127.0.0.1", port, 512, HOUR) == NULL && flushed(&out, "a", 1) == 0);
    later += SECOND;
    CHECK(gets(server, "a:1|c\n") && cadence_udp_flush(&out) == 0 && gets_nothing(server));
    cadence_udp_telemetry(&out, &settings, 1000);
    CHECK(cadence_udp_flush(&out) == 0 && gets_nothing(server));
    for (int i = 0; i < 3; i++) { /* the packet of a report is in the next one */
        later += SECOND;
        CHECK(cadence_udp_flush(&out) == 0 && gets(server, "t.packets_sent:1|c\n") && gets_nothing(server));
    }
    cadence_udp_telemetry(&out, &settings, HOUR);
    CHECK(flushed(&out, "a", 1) == 0 && gets(server, "a:1|c\n") && gets_nothing(server));
    cadence_udp_close(&out);
    CHECK(cadence_udp_connect_path(&out, path, 512, HOUR) == NULL);
    cadence_udp_telemetry(&out, &settings, 1);
    CHECK(flushed(&out, "a", 1) == 1 && close(server) == 0);
    server = server_at_path(path);
    later += SECOND;
    CHECK(cadence_udp_flush(&out) == 0 && gets(server, "a:1|c\n"));
    CHECK(gets(server, "t.packets_refused:1|c\n") && gets_nothing(server));
    cadence_udp_close(&out);
    close(server);
    unlink(path);
}

/* The container of the process, if a variable asks for it. */
static void by_container(void) {
    cadence_udp out = CADENCE_UDP_CLOSED;
    const char *const words[] = { "1", "", "0", "on" };
    for (int i = 0; i < 4; i++) {
        setenv("DD_ORIGIN_DETECTION_ENABLED", words[i], 1);
        const char *const fault = cadence_udp_connect_environment(&out, "p", 512, HOUR);
        CHECK(i < 3 ? fault == NULL : strncmp(fault, "DD_ORIGIN_DETECTION_ENABLED wants ", 34) == 0);
        if (i > 0) CHECK(!out.settings.contained && out.settings.container_len == 0);
        else if (out.settings.contained) CHECK(out.settings.container_len == 64 || memcmp(out.settings.container, "in-", 3) == 0);
    }
    cadence_udp_close(&out);
    CHECK(unsetenv("DD_ORIGIN_DETECTION_ENABLED") == 0);
}

/* The external data of the process, if a variable asks for them, and the cardinality. */
static void by_enrichment(void) {
    uint16_t port = 0;
    char text[8];
    cadence_udp out = CADENCE_UDP_CLOSED;
    const int server = server_at("127.0.0.1", &port);
    snprintf(text, sizeof text, "%u", port);
    setenv("DD_AGENT_HOST", "127.0.0.1", 1);
    setenv("DD_DOGSTATSD_PORT", text, 1);
    setenv("DD_EXTERNAL_ENV", "it-false,|cn-web\n,pu-4a", 1);
    setenv("DD_CARDINALITY", "low", 1);
    setenv("DATADOG_CARDINALITY", "high", 1);
    for (int is_wanted = 0; is_wanted < 2; is_wanted++) {
        setenv("DD_ORIGIN_DETECTION_ENABLED", is_wanted ? "yes" : "", 1);
        CHECK(cadence_udp_connect_environment(&out, "p", 512, HOUR) == NULL);
        out.settings.contained = false; /* which container the process has is not known here */
        CHECK(cadence_count(&out.client, &out.settings, "e", 1, NULL) == CADENCE_OK && cadence_udp_flush(&out) == 0);
        CHECK(gets(server, is_wanted ? "p.e:1|c|e:it-false,cn-web,pu-4a|card:low\n" : "p.e:1|c|card:low\n"));
    }
    const char *const names[] = { "DD_EXTERNAL_ENV", "DATADOG_CARDINALITY", "DD_CARDINALITY" };
    for (int i = 0; i < 3; i++) {
        setenv(names[i], "\xff", 1);
        if (i > 0) CHECK(unsetenv(names[i - 1]) == 0);
        const char *const fault = cadence_udp_connect_environment(&out, "p", 512, HOUR);
        if (i == 1) CHECK(fault == NULL); /* the other variable of the cardinality overrides it */
        else CHECK(fault != NULL && strncmp(fault, names[i], strlen(names[i])) == 0 && out.socket == NULL);
    }
    cadence_udp_close(&out);
    CHECK(unsetenv("DD_CARDINALITY") == 0 && unsetenv("DD_ORIGIN_DETECTION_ENABLED") == 0);
    CHECK(unsetenv("DD_AGENT_HOST") == 0 && unsetenv("DD_DOGSTATSD_PORT") == 0);
    close(server);
}

int main(int argc, char **argv) {
    char path[108];
    if (argc != 3 || (size_t)snprintf(path, sizeof path, "%s/udp.sock", argv[1]) >= sizeof path) return 2;
    by_host();
    by_time();
    CHECK(five_lines() == 0);
    of_zeros();
    small_stacks();
    by_path(path);
    by_name();
    by_rows(argv[2]);
    by_environment(path);
    by_ipv6();
    by_telemetry(path);
    by_container();
    by_enrichment();
    return failures != 0;
}
