/* SPDX-License-Identifier: Apache-2.0 OR MIT */
/* Tests what include/cadence.h says of sums: what is held, what the client gets of it and when, which status a call
 * returns, and the functions of the header itself. It prints each check that fails, and its exit status is then 1. It is
 * valid C and C++. */
#include <cadence.h>
#include <stdio.h>
#include <string.h>

#define CHECK(holds) ((holds) ? (void)0 : fail(#holds, __LINE__))

static int failures;
static const uint8_t bad[] = { 0xff };

static void fail(const char *what, int line) {
    printf("sums.c:%d: %s\n", line, what);
    failures++;
}

static cadence_handle opened(size_t capacity) {
    cadence_handle handle = CADENCE_CLOSED;
    CHECK(cadence_open(&handle, capacity, 2, CADENCE_REFUSE) == CADENCE_OK);
    return handle;
}

static cadence_sums summing(size_t contexts, size_t longest, bool packed) {
    cadence_sums sums = CADENCE_CLOSED;
    CHECK(cadence_open_sums(&sums, contexts, longest, packed) == CADENCE_OK);
    return sums;
}

/* Returns whether the oldest packet is this text, and drops the packet. */
static bool gives(cadence_handle *handle, const char *text) {
    uint8_t packet[64];
    size_t length = 0;
    const bool same = cadence_next(handle, packet, sizeof packet, &length) == CADENCE_OK && length == strlen(text)
        && memcmp(packet, text, length) == 0;
    if (!same) printf("%.*s in place of %s\n", (int)length, (const char *)packet, text);
    cadence_sent(handle);
    return same;
}

/* Returns whether no packet waits and no text is held. */
static bool has_nothing(cadence_handle *handle) {
    cadence_counts_of counts;
    return cadence_counts(handle, &counts) == CADENCE_OK && counts.waiting == 0 && counts.held == 0;
}

static void add(cadence_sums *sums, cadence_handle *handle, const char *line) {
    if (cadence_add_raw(sums, handle, line) != CADENCE_OK) fail(line, __LINE__);
}

static void lines(void) {
    cadence_handle handle = opened(256);
    cadence_sums sums = summing(8, 64, false);
    static const char *const added[] = { "a:1|c|#k:v", "g:5|g",  "a:2|c|#k:v", "g:7.5|g", "u:3|s",
                                         "u:3|s",      "t:4|ms", "a:0.5|c",    "a:1|c|T7" };
    for (size_t i = 0; i < sizeof added / sizeof added[0]; i++) add(&sums, &handle, added[i]);
    CHECK(cadence_flush(&handle) == CADENCE_OK && gives(&handle, "t:4|ms\na:0.5|c\na:1|c|T7\n"));
    CHECK(cadence_add_line(&sums, &handle, bad, 1) == CADENCE_NOT_UTF8);
    CHECK(cadence_flush_sums(&sums, &handle) == CADENCE_OK && cadence_flush(&handle) == CADENCE_OK);
    CHECK(gives(&handle, "a:3|c|#k:v\ng:7.5|g\nu:3|s\n"));
    CHECK(cadence_flush_sums(&sums, &handle) == CADENCE_OK && has_nothing(&handle));
    cadence_free_sums(&sums);
    cadence_free(&handle);
}

/* A line that may set a gauge comes after the gauges that are held, and leaves the counters held. */
static void gauges(void) {
    cadence_handle handle = opened(256);
    cadence_sums sums = summing(8, 64, false);
    static const char *const later[] = { "g:-1|g", "g:+1|g", "g:8,5|g", "g:2|g|T7", "g:x|g" };
    add(&sums, &handle, "a:1|c");
    for (size_t i = 0; i < sizeof later / sizeof later[0]; i++) {
        char expected[64];
        add(&sums, &handle, "g:1|g");
        add(&sums, &handle, later[i]);
        snprintf(expected, sizeof expected, "g:1|g\n%s\n", later[i]);
        CHECK(cadence_flush(&handle) == CADENCE_OK && gives(&handle, expected));
    }
    CHECK(cadence_flush_sums(&sums, &handle) == CADENCE_OK && cadence_flush(&handle) == CADENCE_OK);
    CHECK(gives(&handle, "a:1|c\n"));
    cadence_free_sums(&sums);
    cadence_free(&handle);
}

static void closed(void) {
    cadence_handle handle = CADENCE_CLOSED;
    cadence_sums sums = summing(8, 64, false);
    CHECK(cadence_add_raw(&sums, &handle, "a:1|c") == CADENCE_NO_CLIENT);
    CHECK(cadence_flush_sums(&sums, &handle) == CADENCE_NO_CLIENT);
    cadence_free_sums(&sums);
    cadence_free_sums(&sums);
    handle = opened(256);
    CHECK(cadence_add_line(&sums, &handle, bad, 1) == CADENCE_NO_CLIENT);
    CHECK(cadence_flush_sums(&sums, &handle) == CADENCE_NO_CLIENT);
    cadence_free(&handle);
}

/* Each line is a packet, and two may wait. So the third line waits in the sums, and a fourth one is refused. */
static void full(void) {
    cadence_handle handle = opened(0);
    cadence_sums sums = summing(8, 64, false);
    add(&sums, &handle, "t:0|ms");
    add(&sums, &handle, "t:1|ms");
    add(&sums, &handle, "t:2|ms");
    CHECK(cadence_add_raw(&sums, &handle, "t:3|ms") == CADENCE_FULL);
    CHECK(cadence_add_raw(&sums, &handle, "a:1|c") == CADENCE_FULL && cadence_flush_sums(&sums, &handle) == CADENCE_FULL);
    CHECK(gives(&handle, "t:0|ms"));
    add(&sums, &handle, "a:1|c");
    add(&sums, &handle, "b:1|c");
    add(&sums, &handle, "d:1|c");
    CHECK(cadence_flush_sums(&sums, &handle) == CADENCE_FULL && gives(&handle, "t:1|ms") && gives(&handle, "t:2|ms"));
    CHECK(cadence_flush_sums(&sums, &handle) == CADENCE_FULL && gives(&handle, "a:1|c") && gives(&handle, "b:1|c"));
    CHECK(cadence_flush_sums(&sums, &handle) == CADENCE_OK && gives(&handle, "d:1|c") && has_nothing(&handle));
    cadence_free_sums(&sums);
    cadence_free(&handle);
}

/* A full table gives its oldest context. Values are packed if they may be. */
static void limits(void) {
    cadence_handle handle = opened(0);
    cadence_sums sums = summing(0, 11, true);
    add(&sums, &handle, "a:1|c");
    add(&sums, &handle, "b:1|c");
    CHECK(gives(&handle, "a:1|c"));
    add(&sums, &handle, "longer_name:1|c");
    CHECK(gives(&handle, "longer_name:1|c"));
    add(&sums, &handle, "t:1|ms");
    add(&sums, &handle, "t:2:3|ms");
    CHECK(has_nothing(&handle) && cadence_flush_sums(&sums, &handle) == CADENCE_OK);
    CHECK(gives(&handle, "b:1|c") && gives(&handle, "t:1:2:3|ms") && has_nothing(&handle));
    CHECK(cadence_open_sums(&sums, 8, 64, false) == CADENCE_OK);
    cadence_free_sums(&sums);
    cadence_free(&handle);
}

static void calls(void) {
    cadence_handle handle = opened(1024);
    cadence_sums sums = summing(8, 64, false);
    char key[600];
    uint8_t packet[1024];
    size_t length;
    const cadence_settings prefix = cadence_settings_of("p.");
    const cadence_tag tag = cadence_tag_of("k", "v");
    const cadence_options tagged = cadence_options_of(&tag, 1);
    CHECK(cadence_add_whole(&sums, &handle, &prefix, CADENCE_COUNTER, "a", 1, &tagged) == CADENCE_OK);
    CHECK(cadence_add_whole(&sums, &handle, &prefix, CADENCE_COUNTER, "a", -8, &tagged) == CADENCE_OK);
    CHECK(cadence_add_double(&sums, &handle, NULL, CADENCE_GAUGE, "g", 0.75, NULL) == CADENCE_OK);
    CHECK(cadence_add_whole(&sums, &handle, NULL, 9, "g", 1, NULL) == CADENCE_INVALID);
    memset(key, 'k', sizeof key);
    key[sizeof key - 1] = 0;
    CHECK(cadence_add_whole(&sums, &handle, NULL, CADENCE_GAUGE, key, 1, NULL) == CADENCE_OK && cadence_flush(&handle) == CADENCE_OK);
    CHECK(cadence_next(&handle, packet, sizeof packet, &length) == CADENCE_OK && length == 14 + 9 + sizeof key - 1 + 5);
    CHECK(memcmp(packet, "p.a:-7|c|#k:v\ng:0.75|g\nkkk", 26) == 0);
    cadence_free_sums(&sums);
    cadence_free(&handle);
}

/* A call by a key adds what the line of the key says with its number. A key is of these sums alone. */
static void keys(void) {
    cadence_handle handle = opened(0), none = CADENCE_CLOSED;
    cadence_sums sums = summing(2, 16, false), closed_sums = CADENCE_CLOSED;
    const cadence_settings prefix = cadence_settings_of("p.");
    const cadence_tag tag = cadence_tag_of("k", "v");
    const cadence_options tagged = cadence_options_of(&tag, 1);
    static const char *const no_keys[] = { "s:1|s", "t:1|ms", "m:1|m", "a:0.5|c", "a:1|c|T7", "no line" };
    size_t visits = 9, load = 9, other = 9, long_one = 9;
    CHECK(cadence_make_key(&closed_sums, bad, 1, &visits) == CADENCE_NO_CLIENT);
    CHECK(cadence_make_key(&sums, bad, 1, &visits) == CADENCE_NOT_UTF8 && visits == 9);
    for (size_t i = 0; i < sizeof no_keys / sizeof no_keys[0]; i++)
        CHECK(cadence_make_key(&sums, (const uint8_t *)no_keys[i], strlen(no_keys[i]), &visits) == CADENCE_INVALID);
    CHECK(cadence_add_number(&sums, &handle, 0, 1) == CADENCE_INVALID);
    CHECK(cadence_key_of(&sums, &prefix, CADENCE_COUNTER, "visits", &tagged, &visits) == CADENCE_OK && visits == 0);
    CHECK(cadence_key_of(&sums, &prefix, CADENCE_GAUGE, "load", NULL, &load) == CADENCE_OK && load == 1);
    CHECK(cadence_key_of(&sums, NULL, CADENCE_COUNTER, "a", NULL, &other) == CADENCE_OK && other == 2);
    CHECK(cadence_key_of(&sums, NULL, CADENCE_COUNTER, "longer_than_that", NULL, &long_one) == CADENCE_OK);
    CHECK(cadence_key_of(&sums, NULL, CADENCE_TIMER, "t", NULL, &other) == CADENCE_INVALID && other == 2);
    CHECK(cadence_add_number(&sums, &none, visits, 1) == CADENCE_NO_CLIENT);
    CHECK(cadence_add_number(&closed_sums, &handle, visits, 1) == CADENCE_NO_CLIENT);
    CHECK(cadence_add_number(&sums, &handle, visits, 40) == CADENCE_OK);
    CHECK(cadence_add_number(&sums, &handle, visits, -41) == CADENCE_OK);
    CHECK(cadence_add_number(&sums, &handle, load, 7) == CADENCE_OK);
    CHECK(cadence_add_number(&sums, &handle, load, INT64_MAX) == CADENCE_OK);
    CHECK(cadence_add_number(&sums, &handle, load, -1) == CADENCE_INVALID && has_nothing(&handle));
    add(&sums, &handle, "a:1|c");
    CHECK(cadence_add_number(&sums, &handle, other, 4) == CADENCE_OK && has_nothing(&handle));
    CHECK(cadence_add_number(&sums, &handle, long_one, 2) == CADENCE_OK && gives(&handle, "longer_than_that:2|c"));
    CHECK(cadence_flush_sums(&sums, &handle) == CADENCE_FULL && gives(&handle, "p.visits:-1|c|#k:v") && gives(&handle, "a:5|c"));
    CHECK(cadence_add_number(&sums, &handle, other, INT64_MAX) == CADENCE_OK && gives(&handle, "p.load:9223372036854775807|g"));
    CHECK(cadence_add_number(&sums, &handle, other, 1) == CADENCE_OK && gives(&handle, "a:9223372036854775807|c"));
    CHECK(cadence_flush_sums(&sums, &handle) == CADENCE_OK && gives(&handle, "a:1|c") && has_nothing(&handle));
    CHECK(cadence_open_sums(&sums, 2, 16, false) == CADENCE_OK && cadence_add_number(&sums, &handle, visits, 1) == CADENCE_INVALID);
    cadence_free_sums(&sums);
    cadence_free(&handle);
}

int main(void) {
    keys();
    lines();
    gauges();
    closed();
    full();
    limits();
    calls();
    return failures != 0;
}
