/* SPDX-License-Identifier: Apache-2.0 OR MIT */
/* Tests what include/cadence.h says besides the types of the calls: which status a call returns if several apply, which
 * arguments are neither read nor tested, what stays after an error, the functions of the header itself, and calls in the
 * room that the heap lends. It prints each check that fails, and its exit status is then 1. It is valid C and C++. */
#include <cadence.h>
#include <math.h>
#include <stdio.h>
#include <string.h>

#define CHECK(holds) ((holds) ? (void)0 : fail(#holds, __LINE__))
#define BYTES(s) (const uint8_t *)(s), sizeof(s) - 1
#define BAD BYTES("\xff")

static int failures;
static const cadence_options none = CADENCE_NO_OPTIONS;
static const int64_t one = 1;
static const uint64_t nanos = 1, two[] = { 1, 2 };
static const cadence_decimal_number many_places = { 1, 31 };
static const cadence_settings nothing = CADENCE_NO_SETTINGS, bad_prefix = { BAD, NULL, 0, NULL, 0, false, false, false, NULL, 0, 0 };

static void fail(const char *what, int line) {
    printf("calls.c:%d: %s\n", line, what);
    failures++;
}

static cadence_handle opened(size_t capacity, uint32_t policy) {
    cadence_handle handle = CADENCE_CLOSED;
    CHECK(cadence_open(&handle, capacity, 2, policy) == CADENCE_OK);
    return handle;
}

/* Returns whether the oldest packet is this text, and drops the packet. */
static bool sends(cadence_handle *handle, const char *text) {
    uint8_t packet[256];
    size_t length = 0;
    cadence_flush(handle);
    const bool same = cadence_next(handle, packet, sizeof packet, &length) == CADENCE_OK && length == strlen(text)
        && memcmp(packet, text, length) == 0;
    if (!same) printf("%.*s in place of %s", (int)length, (const char *)packet, text);
    cadence_sent(handle);
    return same;
}

static void texts(void) {
    char version[32];
    snprintf(version, sizeof version, "%d.%d.%d", CADENCE_VERSION_MAJOR, CADENCE_VERSION_MINOR, CADENCE_VERSION_PATCH);
    CHECK(strcmp(version, CADENCE_VERSION) == 0);
    CHECK(strcmp(version, cadence_version()) == 0);
    for (uint32_t status = 0; status <= 17; status++) {
        CHECK(strlen(cadence_status_text(status)) != 0);
        for (uint32_t other = 0; other < status; other++)
            CHECK(strcmp(cadence_status_text(status), cadence_status_text(other)) != 0);
    }
    CHECK(strstr(cadence_status_text(CADENCE_FULL), "(CADENCE_FULL)") != NULL);
    CHECK(strcmp(cadence_status_text(17), cadence_status_text(UINT32_MAX)) == 0);
}

static void helpers(void) {
    cadence_handle handle = opened(256, CADENCE_REFUSE);
    uint8_t room[64];
    size_t needed = 9;
    cadence_settings settings;
    const cadence_tag tags[] = { cadence_tag_of("k", "v"), cadence_tag_of(NULL, "w"), cadence_tag_of("", NULL) };
    const cadence_tag defaults[] = { cadence_tag_of("env", "prod"), cadence_tag_of(NULL, "beta") };
    const cadence_options tagged = cadence_options_of(tags, 3);
    const cadence_settings prefix = cadence_settings_of("p.");
    CHECK(cadence_count(&handle, &prefix, "c", -7, &tagged) == CADENCE_OK && sends(&handle, "p.c:-7|c|#k:v,w,:\n"));
    CHECK(cadence_settings_make(&settings, "p", defaults, 2, "id", false, room, sizeof room, &needed) == CADENCE_OK && needed == 17);
    CHECK(cadence_gauge(&handle, &settings, "g", 5, NULL) == CADENCE_OK && sends(&handle, "p.g:5|g|#env:prod,beta|c:id\n"));
    CHECK(cadence_count(&handle, &settings, "c", 5, &tagged) == CADENCE_OK);
    CHECK(sends(&handle, "p.c:5|c|#env:prod,beta,k:v,w,:|c:id\n"));
    CHECK(cadence_time_millis(&handle, NULL, "t", 320, NULL) == CADENCE_OK && sends(&handle, "t:320|ms\n"));
    CHECK(cadence_time_nanos(&handle, NULL, "t", 1999999, NULL) == CADENCE_OK && sends(&handle, "t:1.999999|ms\n"));
    CHECK(cadence_distribute(&handle, NULL, "d", 3, NULL) == CADENCE_OK && sends(&handle, "d:3|d\n"));
    CHECK(cadence_whole(&handle, NULL, CADENCE_SET, "s", 3, NULL) == CADENCE_OK && sends(&handle, "s:3|s\n"));
    CHECK(cadence_parts(&handle, NULL, CADENCE_GAUGE, "g", -1250, 3, NULL) == CADENCE_OK && sends(&handle, "g:-1.25|g\n"));
    CHECK(cadence_set_text(&handle, &settings, "s", "a,b", &tagged) == CADENCE_OK);
    CHECK(sends(&handle, "p.s:a,b|s|#env:prod,beta,k:v,w,:|c:id\n"));
    CHECK(cadence_set_text(&handle, NULL, "s", NULL, NULL) == CADENCE_INVALID);
    CHECK(cadence_change(&handle, &settings, "g", 5, NULL) == CADENCE_OK && sends(&handle, "p.g:+5|g|#env:prod,beta|c:id\n"));
    CHECK(cadence_change(&handle, NULL, "g", -5, NULL) == CADENCE_OK && sends(&handle, "g:-5|g\n"));
    CHECK(cadence_parts(&handle, NULL, CADENCE_CHANGE, "g", 1250, 3, NULL) == CADENCE_OK && sends(&handle, "g:+1.25|g\n"));
    CHECK(cadence_level_whole(&handle, NULL, "g", -5, &tagged) == CADENCE_OK && sends(&handle, "g:0|g|#k:v,w,:\ng:-5|g|#k:v,w,:\n"));
    CHECK(cadence_level_double(&handle, NULL, "g", -0.5, NULL) == CADENCE_OK && sends(&handle, "g:0|g\ng:-0.5|g\n"));
    CHECK(cadence_level_double(&handle, NULL, "g", (double)NAN, NULL) == CADENCE_INVALID);
    CHECK(cadence_raw(&handle, "own:1|c") == CADENCE_OK && sends(&handle, "own:1|c\n"));
    CHECK(cadence_count(&handle, NULL, NULL, 1, NULL) == CADENCE_OK && sends(&handle, ":1|c\n"));
    cadence_free(&handle);
}

/* Returns whether a double has this decimal, and rounded to six places this other one. */
static bool has_decimals(double value, int64_t mantissa, uint8_t places, int64_t rounded, uint8_t rounded_places) {
    cadence_decimal_number found = { 9, 9 }, six = { 9, 9 };
    return cadence_decimal_of_double(value, &found) == CADENCE_OK && found.mantissa == mantissa && found.places == places
        && cadence_rounded_of_double(value, &six) == CADENCE_OK && six.mantissa == rounded && six.places == rounded_places;
}

static bool has_no_decimal(double value) {
    cadence_decimal_number found = { 9, 9 };
    return cadence_decimal_of_double(value, &found) == CADENCE_INVALID && found.mantissa == 9 && found.places == 9;
}

static void doubles(void) {
    cadence_handle handle = opened(256, CADENCE_REFUSE);
    cadence_decimal_number found = { 9, 9 };
    CHECK(has_decimals(0.0, 0, 0, 0, 0) && has_decimals(-0.0, 0, 0, 0, 0) && has_decimals(1.0, 1, 0, 1, 0));
    CHECK(has_decimals(0.75, 75, 2, 75, 2) && has_decimals(-2.5, -25, 1, -25, 1) && has_decimals(0.1, 1, 1, 1, 1));
    CHECK(has_decimals(3.141592653589793, 3141592653589793, 15, 3141593, 6) && has_decimals(1e-30, 1, 30, 0, 0));
    CHECK(has_decimals(1e18, INT64_C(1000000000000000000), 0, INT64_C(1000000000000000000), 0));
    CHECK(has_decimals(0.0000005, 5, 7, 1, 6) && has_decimals(-0.0000005, -5, 7, -1, 6));
    CHECK(has_decimals(0.00000049, 49, 8, 0, 0) && has_decimals(1.2345675, 12345675, 7, 1234568, 6));
    CHECK(has_decimals(9.999999999, 9999999999, 9, 10, 0));
    CHECK(has_decimals(9223372036854774784.0, INT64_C(9223372036854775000), 0, INT64_C(9223372036854775000), 0));
    CHECK(has_decimals(1.5e-30, 2, 30, 0, 0) && has_decimals(-1.5e-30, -2, 30, 0, 0) && has_decimals(1e-31, 0, 0, 0, 0));
    CHECK(has_decimals(1.2345678901234567e-15, INT64_C(1234567890123457), 30, 0, 0) && has_decimals(5e-324, 0, 0, 0, 0));
    CHECK(has_no_decimal(9223372036854775808.0) && has_no_decimal(1e300) && has_no_decimal((double)NAN));
    CHECK(has_no_decimal((double)INFINITY) && has_no_decimal(-(double)INFINITY));
    CHECK(cadence_rounded_of_double(5e-324, &found) == CADENCE_OK && found.mantissa == 0 && found.places == 0);
    CHECK(cadence_double(&handle, NULL, CADENCE_GAUGE, "g", 0.75, NULL) == CADENCE_OK && sends(&handle, "g:0.75|g\n"));
    CHECK(cadence_double(&handle, NULL, CADENCE_GAUGE, "g", (double)NAN, NULL) == CADENCE_INVALID);
    CHECK(cadence_double(&handle, NULL, CADENCE_GAUGE, "g", 1e38, NULL) == CADENCE_OK);
    CHECK(sends(&handle, "g:100000000000000000000000000000000000000|g\n"));
    CHECK(cadence_double(&handle, NULL, CADENCE_GAUGE, "g", -1e39, NULL) == CADENCE_INVALID);
    CHECK(cadence_double(&handle, NULL, CADENCE_TIMER, "t", 0.0000005, NULL) == CADENCE_OK && sends(&handle, "t:0.000001|ms\n"));
#if defined(__cplusplus) || __STDC_VERSION__ >= 201112L
    CHECK(cadence_gauge(&handle, NULL, "g", 0.75, NULL) == CADENCE_OK && sends(&handle, "g:0.75|g\n"));
    CHECK(cadence_gauge(&handle, NULL, "g", 0.5f, NULL) == CADENCE_OK && sends(&handle, "g:0.5|g\n"));
    CHECK(cadence_time_millis(&handle, NULL, "t", 1.23456789, NULL) == CADENCE_OK && sends(&handle, "t:1.234568|ms\n"));
    CHECK(cadence_distribute(&handle, NULL, "d", -0.5, NULL) == CADENCE_OK && sends(&handle, "d:-0.5|d\n"));
#endif
    CHECK(cadence_gauge(&handle, NULL, "g", 75u, NULL) == CADENCE_OK && sends(&handle, "g:75|g\n"));
    CHECK(cadence_count(&handle, NULL, "c", INT64_MIN, NULL) == CADENCE_OK && sends(&handle, "c:-9223372036854775808|c\n"));
    cadence_free(&handle);
}

/* Which calls of a sample are made. */
static void samples(void) {
    const cadence_decimal_number quarter = { 25, 2 }, all = { 1, 0 };
    const cadence_decimal_number none[] = { { 0, 0 }, { -1, 1 }, { 2, 0 }, { 1, 19 }, { 1, 31 } };
    bool chosen = false;
    CHECK(cadence_chooses(&quarter, (UINT64_C(1) << 62) - 1, &chosen) == CADENCE_OK && chosen);
    CHECK(cadence_chooses(&quarter, UINT64_C(1) << 62, &chosen) == CADENCE_OK && !chosen);
    CHECK(cadence_chooses(&all, UINT64_MAX, &chosen) == CADENCE_OK && chosen);
    for (size_t i = 0; i < sizeof none / sizeof none[0]; i++)
        CHECK(cadence_chooses(&none[i], 0, &chosen) == CADENCE_INVALID && chosen);
}

/* Returns whether a prefix gives this text. */
static bool begins_with(const char *prefix, const char *text) {
    uint8_t out[16];
    size_t length = 9;
    return cadence_prefix_text((const uint8_t *)prefix, strlen(prefix), true, false, out, sizeof out, &length) == CADENCE_OK
        && length == strlen(text) && memcmp(out, text, length) == 0;
}

static void texts_of_settings(void) {
    const cadence_tag bad_tag = { NULL, 0, BAD, false };
    const cadence_tag tags[] = { cadence_tag_of("a", "b"), cadence_tag_of(NULL, "c:d") };
    cadence_settings settings = CADENCE_NO_SETTINGS;
    uint8_t out[16] = { 7 };
    size_t length = 9;
    CHECK(begins_with("", "") && begins_with("a", "a.") && begins_with("a.b..", "a.b.") && begins_with("...", "."));
    CHECK(cadence_prefix_text(BAD, true, false, out, 0, &length) == CADENCE_NOT_UTF8 && length == 0);
    CHECK(cadence_prefix_text(BYTES("a|"), true, true, out, 0, &length) == CADENCE_SEPARATOR && length == 0);
    CHECK(cadence_prefix_text(BYTES("a|"), false, false, out, 2, &length) == CADENCE_TOO_SMALL && length == 3 && out[0] == 7);
    CHECK(cadence_tags_text(&bad_tag, 1, true, false, out, 0, &length) == CADENCE_NOT_UTF8 && length == 0);
    CHECK(cadence_tags_text(tags, 2, true, true, out, 0, &length) == CADENCE_SEPARATOR && length == 0);
    CHECK(cadence_tags_text(tags, 2, false, false, out, 8, &length) == CADENCE_TOO_SMALL && length == 9 && out[0] == 7);
    CHECK(cadence_tags_text(tags, 2, false, false, out, 9, &length) == CADENCE_OK && memcmp(out, "|#a:b,c:d", 9) == 0);
    CHECK(cadence_tags_text(NULL, 0, true, false, NULL, 0, &length) == CADENCE_OK && length == 0);
    CHECK(cadence_test_text(BAD) == CADENCE_NOT_UTF8 && cadence_test_text(BYTES("a b")) == CADENCE_OK);
    for (size_t room = 0; room < 7; room++) {
        length = 9;
        CHECK(cadence_settings_make(&settings, "p", tags, 1, "id", true, room != 0 ? out : NULL, room, &length) == CADENCE_TOO_SMALL);
        CHECK(length == 7 && !settings.strict);
    }
    CHECK(cadence_settings_make(&settings, "p|", tags, 1, "id", true, out, 16, &length) == CADENCE_SEPARATOR && length == 0);
    CHECK(cadence_settings_make(&settings, "p", tags, 2, "id", true, out, 1, &length) == CADENCE_SEPARATOR && length == 0);
    CHECK(cadence_settings_make(&settings, "p", tags, 1, "i:d", true, out, 1, &length) == CADENCE_SEPARATOR && length == 0);
    CHECK(cadence_settings_make(&settings, "p", tags, 1, "id", true, out, 7, &length) == CADENCE_OK && length == 7 && settings.strict);
}

/* Returns whether settings begin each name with this text, and add nothing else. */
static bool begins(cadence_settings settings, const char *text) {
    return settings.prefix_len == strlen(text) && memcmp(settings.prefix, text, strlen(text)) == 0 && settings.tags_len == 0
        && !settings.contained && !settings.strict && !settings.cleaned;
}

static void prefixes_have_one_dot(void) {
    CHECK(begins(cadence_settings_of("my.service"), "my.service.") && begins(cadence_settings_of("my.service."), "my.service."));
    CHECK(begins(cadence_settings_of(""), "") && begins(cadence_settings_of("a"), "a.") && begins(cadence_settings_of("a.b.."), "a.b."));
    CHECK(begins(cadence_settings_of("..."), "."));
}

/* A number of each type of integers is the one that is sent. */
static void integers(void) {
    cadence_handle handle = opened(256, CADENCE_REFUSE);
    const unsigned long long longest = UINT64_MAX;
    const int16_t less = -2;
    int once = 7;
    CHECK(cadence_count(&handle, NULL, "c", (uint64_t)-2, NULL) == CADENCE_OK && sends(&handle, "c:18446744073709551614|c\n"));
    CHECK(cadence_gauge(&handle, NULL, "g", (size_t)-1, NULL) == CADENCE_OK && sends(&handle, "g:18446744073709551615|g\n"));
    CHECK(cadence_time_millis(&handle, NULL, "t", longest, NULL) == CADENCE_OK && sends(&handle, "t:18446744073709551615|ms\n"));
    CHECK(cadence_distribute(&handle, NULL, "d", UINT64_C(1) << 63, NULL) == CADENCE_OK && sends(&handle, "d:9223372036854775808|d\n"));
    CHECK(cadence_gauge(&handle, NULL, "g", UINT32_MAX, NULL) == CADENCE_OK && sends(&handle, "g:4294967295|g\n"));
    CHECK(cadence_gauge(&handle, NULL, "g", -2L, NULL) == CADENCE_OK && sends(&handle, "g:-2|g\n"));
    CHECK(cadence_gauge(&handle, NULL, "g", less, NULL) == CADENCE_OK && sends(&handle, "g:-2|g\n"));
    CHECK(cadence_gauge(&handle, NULL, "g", true, NULL) == CADENCE_OK && sends(&handle, "g:1|g\n"));
    CHECK(cadence_gauge(&handle, NULL, "g", once++, NULL) == CADENCE_OK && sends(&handle, "g:7|g\n") && once == 8);
    cadence_free(&handle);
}

static void order_of_a_client(void) {
    cadence_handle closed = CADENCE_CLOSED;
    CHECK(cadence_open(&closed, SIZE_MAX, 2, 9) == CADENCE_INVALID);
    CHECK(cadence_open(&closed, SIZE_MAX, 1, CADENCE_REFUSE) == CADENCE_INVALID);
    CHECK(cadence_open(&closed, 8, SIZE_MAX / 32, CADENCE_REFUSE) == CADENCE_NO_MEMORY);
    CHECK(cadence_open(&closed, SIZE_MAX / 2, 2, CADENCE_REFUSE) == CADENCE_NO_MEMORY);
    CHECK(cadence_line(&closed, BAD) == CADENCE_NO_CLIENT && cadence_flush(&closed) == CADENCE_NO_CLIENT);
    CHECK(cadence_sent(&closed) == CADENCE_NO_CLIENT);
    for (uint32_t policy = 0; policy < 600; policy++)
        CHECK((cadence_open(&closed, 64, 2, policy) == CADENCE_OK) == (policy <= CADENCE_DROP_OLDEST));
    cadence_free(&closed);
}

/* Returns whether a text has this status in each place of a call, and where a text alone is tested. */
static bool has_status(const uint8_t *text, size_t len, uint32_t status) {
    const cadence_tag keyed = { text, len, BYTES("v"), true }, alone = { NULL, 0, text, len, false };
    cadence_settings prefix = nothing, tags = nothing, container = nothing, external = nothing;
    cadence_options contained = none;
    const cadence_options key_of_tag = cadence_options_of(&keyed, 1), text_of_tag = cadence_options_of(&alone, 1);
    uint8_t out[128];
    size_t length;
    prefix.prefix = tags.tags = container.container = external.external = contained.container = text;
    prefix.prefix_len = tags.tags_len = container.container_len = external.external_len = contained.container_len = len;
    container.contained = contained.contained = true;
#define LINE(settings, options) cadence_format_signed(&settings, 0, BYTES("k"), &one, 1, &options, out, sizeof out, &length)
    return cadence_test_text(text, len) == status && LINE(prefix, none) == status && LINE(tags, none) == status
        && LINE(container, none) == status && LINE(external, none) == status && LINE(nothing, contained) == status && LINE(nothing, key_of_tag) == status
        && LINE(nothing, text_of_tag) == status
        && cadence_format_signed(&nothing, 0, text, len, &one, 1, &none, out, sizeof out, &length) == status;
#undef LINE
}

/* Texts of up to 40 bytes, with a character that isn't ASCII, or with a part of one, in each place. The bytes around a text
 * aren't ASCII. */
static void texts_of_each_length(void) {
    static const struct { const char *bytes; uint32_t status; } rows[] = {
        { "\xc2\x80", CADENCE_OK },
        { "\xe2\x82\xac", CADENCE_OK },
        { "\xf0\x9f\x98\x80", CADENCE_OK },
        { "\x80", CADENCE_NOT_UTF8 },
        { "\xff", CADENCE_NOT_UTF8 },
        { "\xc3", CADENCE_NOT_UTF8 },
        { "\xe2\x82", CADENCE_NOT_UTF8 },
        { "\xf0\x9f\x98", CADENCE_NOT_UTF8 },
        { "\xc0\x80", CADENCE_NOT_UTF8 },
        { "\xed\xa0\x80", CADENCE_NOT_UTF8 },
        { "\xf4\x90\x80\x80", CADENCE_NOT_UTF8 },
    };
    uint8_t room[42], *const text = room + 1;
    for (size_t len = 0; len <= 40; len++) {
        memset(room, 0xff, sizeof room);
        memset(text, 0x7f, len);
        CHECK(has_status(text, len, CADENCE_OK));
        for (size_t row = 0; row < sizeof rows / sizeof *rows; row++) {
            const size_t wide = strlen(rows[row].bytes);
            for (size_t at = 0; at + wide <= len; at++) {
                memcpy(text + at, rows[row].bytes, wide);
                CHECK(has_status(text, len, rows[row].status));
                memset(text + at, 0x7f, wide);
            }
        }
    }
}

static void order_of_a_call(void) {
    cadence_handle closed = CADENCE_CLOSED, open = opened(0, CADENCE_REFUSE);
    const cadence_tag bad_tag = { NULL, 0, BAD, false };
    cadence_options bad_tags = cadence_options_of(&bad_tag, 1), bad_container = none, bad_rate = none;
    bad_container.contained = bad_container.rated = bad_rate.rated = bad_tags.rated = true;
    bad_container.container = (const uint8_t *)"\xff", bad_container.container_len = 1;
    bad_container.rate = bad_rate.rate = bad_tags.rate = many_places;
    CHECK(cadence_decimal(&closed, &bad_prefix, 9, BAD, &many_places, 1, &none) == CADENCE_INVALID);
    CHECK(cadence_duration(&closed, &bad_prefix, CADENCE_GAUGE, BAD, &nanos, 1, &none) == CADENCE_INVALID);
    CHECK(cadence_signed(&closed, &bad_prefix, 9, BAD, &one, 1, &none) == CADENCE_NO_CLIENT);
    CHECK(cadence_signed(&open, &bad_prefix, 9, BYTES("k"), &one, 1, &none) == CADENCE_NOT_UTF8);
    CHECK(cadence_signed(&open, &nothing, 9, BAD, &one, 1, &none) == CADENCE_NOT_UTF8);
    CHECK(cadence_signed(&open, &nothing, 9, BYTES("k"), &one, 1, &bad_tags) == CADENCE_INVALID);
    CHECK(cadence_signed(&open, &nothing, 0, BYTES("k"), &one, 1, &bad_tags) == CADENCE_NOT_UTF8);
    CHECK(cadence_signed(&open, &nothing, 0, BYTES("k"), &one, 1, &bad_container) == CADENCE_NOT_UTF8);
    CHECK(cadence_raw(&open, "a") == CADENCE_OK && cadence_raw(&open, "b") == CADENCE_OK);
    CHECK(cadence_member(&closed, &bad_prefix, BAD, BYTES(""), &none) == CADENCE_INVALID);
    CHECK(cadence_member(&closed, &bad_prefix, BAD, BAD, &none) == CADENCE_INVALID);
    CHECK(cadence_member(&closed, &bad_prefix, BAD, BYTES("m"), &none) == CADENCE_NO_CLIENT);
    CHECK(cadence_member(&open, &bad_prefix, BYTES("k"), BYTES("m"), &none) == CADENCE_NOT_UTF8);
    CHECK(cadence_member(&open, &nothing, BYTES("k"), BYTES("m"), &bad_tags) == CADENCE_NOT_UTF8);
    CHECK(cadence_signed(&closed, &bad_prefix, CADENCE_CHANGE, BAD, NULL, 0, &none) == CADENCE_INVALID);
    CHECK(cadence_unsigned(&open, &nothing, CADENCE_CHANGE, BYTES("k"), two, 2, &none) == CADENCE_INVALID);
    CHECK(cadence_duration(&open, &nothing, CADENCE_CHANGE, BYTES("k"), &nanos, 1, &none) == CADENCE_INVALID);
    CHECK(cadence_signed(&open, &nothing, 0, BYTES("k"), &one, 1, &bad_rate) == CADENCE_INVALID);
    CHECK(cadence_signed(&open, &nothing, 0, BYTES("k"), &one, 1, &none) == CADENCE_FULL);
    CHECK(cadence_raw(&open, "c") == CADENCE_FULL);
    cadence_free(&open);
}

/* The lines of a gauge below 0 are in one packet, and neither is kept if there is no room for both. */
static void levels_in_packets(void) {
    static char key[CADENCE_LEVEL_BYTES];
    cadence_handle handle = opened(20, CADENCE_REFUSE);
    CHECK(cadence_raw(&handle, "a.name:1|c") == CADENCE_OK && cadence_level_whole(&handle, NULL, "g", -5, NULL) == CADENCE_OK);
    cadence_flush(&handle);
    CHECK(cadence_level_whole(&handle, NULL, "g", -6, NULL) == CADENCE_OK);
    CHECK(cadence_level_whole(&handle, NULL, "g", -7, NULL) == CADENCE_FULL);
    CHECK(sends(&handle, "a.name:1|c\n") && sends(&handle, "g:0|g\ng:-5|g\n") && sends(&handle, "g:0|g\ng:-6|g\n"));
    memset(key, 'k', sizeof key - 1);
    for (size_t len = 1; len < sizeof key - 1; len++) {
        key[len] = '\0';
        const uint32_t status = cadence_level_whole(&handle, NULL, key, -5, NULL);
        CHECK(status == (2 * len + 10 <= CADENCE_LEVEL_BYTES ? CADENCE_OK : CADENCE_TOO_SMALL));
        key[len] = 'k';
        cadence_flush(&handle), cadence_sent(&handle), cadence_sent(&handle);
    }
    cadence_free(&handle);
    CHECK(cadence_level_whole(&handle, NULL, "g", -5, NULL) == CADENCE_NO_CLIENT);
}

static void order_of_a_line(void) {
    const cadence_tag bad_tag = { NULL, 0, BAD, false };
    const cadence_options bad_tags = cadence_options_of(&bad_tag, 1);
    const cadence_settings settings[] = { nothing, cadence_settings_of("p."), bad_prefix,
                                          { NULL, 0, BAD, NULL, 0, false, false, false, NULL, 0, 0 },
                                          { NULL, 0, NULL, 0, BAD, true, false, false, NULL, 0, 0 },
                                          { NULL, 0, NULL, 0, NULL, 0, false, false, false, BAD, 0 },
                                          { NULL, 0, NULL, 0, BAD, false, false, false, NULL, 0, 0 } };
    size_t length = 9;
    CHECK(cadence_format_duration(&bad_prefix, 9, BAD, &nanos, 1, &none, NULL, 0, &length) == CADENCE_INVALID && length == 0);
    CHECK(cadence_format_signed(&nothing, 9, BAD, &one, 1, &none, NULL, 0, &length) == CADENCE_NOT_UTF8);
    CHECK(cadence_format_signed(&nothing, 9, BYTES("k"), &one, 1, &bad_tags, NULL, 0, &length) == CADENCE_INVALID);
    CHECK(cadence_format_signed(&nothing, 0, BYTES("k"), &one, 1, &bad_tags, NULL, 0, &length) == CADENCE_NOT_UTF8);
    for (int i = 0; i < 7; i++) {
        const bool bad = i >= 2 && i <= 5; /* the last container is not read, since it is not set */
        const uint32_t status = cadence_format_signed(&settings[i], 0, BYTES("k"), &one, 1, &none, NULL, 0, &length);
        CHECK(status == (bad ? CADENCE_NOT_UTF8 : CADENCE_TOO_SMALL) && length == (bad ? 0 : i == 1 ? 7 : 5));
    }
}

/* Returns whether strict settings refuse this text in each place of a call but after the key of a tag, known or not, and
 * as texts of their own. After the key of a tag they must refuse it if it has a separator other than a colon. */
static bool refuses(const char *text) {
    static uint8_t packet[256], room[64];
    cadence_handle handle = opened(64, CADENCE_REFUSE);
    cadence_settings strict;
    const cadence_tag tags[] = { cadence_tag_of("k", "v"), cadence_tag_of(text, "v"), cadence_tag_of(NULL, text) };
    const cadence_tag valued = cadence_tag_of("k", text);
    const uint32_t after_a_key = strpbrk(text, ",|\n") == NULL ? CADENCE_OK : CADENCE_SEPARATOR;
    size_t length;
    bool all = cadence_settings_make(&strict, "p", NULL, 0, NULL, true, room, sizeof room, &length) == CADENCE_OK;
    for (int known = 0; known <= 1; known++) {
        cadence_options options = CADENCE_NO_OPTIONS;
        options.known = known;
        all = all && cadence_count(&handle, &strict, text, 1, &options) == CADENCE_SEPARATOR;
        all = all && cadence_parts(&handle, &strict, CADENCE_GAUGE, text, 25, 1, &options) == CADENCE_SEPARATOR;
        options.tags = tags;
        for (options.tags_len = 2; options.tags_len <= 3; options.tags_len++)
            all = all && cadence_count(&handle, &strict, "c", 1, &options) == CADENCE_SEPARATOR;
        options.tags++;
        for (options.tags_len = 1; options.tags_len <= 2; options.tags_len++)
            all = all && cadence_count(&handle, &strict, "c", 1, &options) == CADENCE_SEPARATOR;
        options.tags = &valued, options.tags_len = 1;
        length = 0;
        const uint32_t status =
            cadence_format_signed(&strict, 0, BYTES("k"), &one, 1, &options, packet, sizeof packet, &length);
        all = all && status == after_a_key && (length != 0) == (status == CADENCE_OK);
        options.tags_len = 0, options.contained = true;
        options.container = (const uint8_t *)text, options.container_len = strlen(text);
        all = all && cadence_count(&handle, &strict, "c", 1, &options) == CADENCE_SEPARATOR;
        all = all && cadence_format_signed(&strict, 0, BYTES("k"), &one, 1, &options, packet, sizeof packet, &length)
            == CADENCE_SEPARATOR && length == 0;
    }
    for (int i = 1; i <= 2; i++)
        all = all && cadence_settings_make(&strict, "p", &tags[i], 1, NULL, true, room, sizeof room, &length) == CADENCE_SEPARATOR;
    all = all && cadence_settings_make(&strict, "p", &valued, 1, NULL, true, room, sizeof room, &length) == after_a_key;
    all = all && cadence_settings_make(&strict, text, NULL, 0, NULL, true, room, sizeof room, &length) == CADENCE_SEPARATOR;
    all = all && cadence_settings_make(&strict, "p", NULL, 0, text, true, room, sizeof room, &length) == CADENCE_SEPARATOR;
    all = all && cadence_settings_make(&strict, "p", NULL, 0, NULL, true, room, sizeof room, &length) == CADENCE_OK;
    all = all && cadence_flush(&handle) == CADENCE_OK;
    all = all && cadence_next(&handle, packet, sizeof packet, &length) == CADENCE_NO_PACKET;
    all = all && cadence_count(&handle, &strict, "c", 1, NULL) == CADENCE_OK && sends(&handle, "p.c:1|c\n");
    cadence_free(&handle);
    return all;
}

static void strict(void) {
    size_t needed;
    static uint8_t room[64];
    cadence_handle handle = opened(64, CADENCE_REFUSE);
    cadence_settings settings;
    const cadence_tag free_tags[] = { cadence_tag_of("k e", "\xc3\xa9#@"), cadence_tag_of(NULL, ""),
                                      { BYTES(","), BYTES("w"), false } };
    const cadence_tag unfree = cadence_tag_of("k:", "v"), bad = { NULL, 0, BAD, false }, env = cadence_tag_of("env", "prod");
    const cadence_tag url = cadence_tag_of("url", "http://x");
    cadence_options options = cadence_options_of(free_tags, 3), two = options, urls = cadence_options_of(&url, 1);
    const cadence_tag both[] = { unfree, bad };
    CHECK(refuses(":") && refuses(",") && refuses("|") && refuses("\n"));
    CHECK(refuses("a:1|c") && refuses(",x") && refuses("x\n") && refuses("\xc3\xa9|") && refuses("http://x") && refuses("::1"));
    CHECK(cadence_settings_make(&settings, "p", &env, 1, "id", true, room, sizeof room, &needed) == CADENCE_OK);
    options.container = (const uint8_t *)"|", options.container_len = 1; /* it is not read, since it is not set */
    CHECK(cadence_count(&handle, &settings, "c", 1, &options) == CADENCE_OK);
    CHECK(sends(&handle, "p.c:1|c|#env:prod,k e:\xc3\xa9#@,,w|c:id\n"));
    CHECK(cadence_count(&handle, &settings, "c", 1, &urls) == CADENCE_OK);
    CHECK(sends(&handle, "p.c:1|c|#env:prod,url:http://x|c:id\n"));
    CHECK(cadence_raw(&handle, "own:1|c|#a,b") == CADENCE_OK && sends(&handle, "own:1|c|#a,b\n"));

    /* the order: what doesn't fit and what is no UTF-8 first, then this, then the queue */
    two.tags = both, two.tags_len = 2;
    CHECK(cadence_count(&handle, &settings, ":", 1, &two) == CADENCE_NOT_UTF8);
    CHECK(cadence_whole(&handle, &settings, 9, ":", 1, NULL) == CADENCE_INVALID);
    two.tags_len = 1, two.rated = true, two.rate = many_places;
    CHECK(cadence_count(&handle, &settings, "c", 1, &two) == CADENCE_INVALID);
    CHECK(cadence_parts(&handle, &settings, CADENCE_GAUGE, ":", 1, 31, NULL) == CADENCE_INVALID);
    CHECK(cadence_raw(&handle, "a") == CADENCE_OK && cadence_flush(&handle) == CADENCE_OK);
    CHECK(cadence_raw(&handle, "b") == CADENCE_OK && cadence_flush(&handle) == CADENCE_OK);
    for (int i = 0; i < 30; i++) cadence_raw(&handle, "c");
    CHECK(cadence_count(&handle, &settings, "a.key.that.does.not.fit.beside.the.held.text", 1, NULL) == CADENCE_FULL);
    CHECK(cadence_count(&handle, &settings, "a.key.that.does.not.fit.beside.the.held.text|", 1, NULL) == CADENCE_SEPARATOR);
    cadence_free(&handle);

    /* settings that are neither strict nor cleaned */
    handle = opened(64, CADENCE_REFUSE);
    const cadence_tag odd = cadence_tag_of(",", "\n");
    CHECK(cadence_settings_make(&settings, "|", &odd, 1, ":", false, room, sizeof room, &needed) == CADENCE_OK);
    CHECK(cadence_count(&handle, &settings, "a:1", 1, NULL) == CADENCE_OK && sends(&handle, "|.a:1:1|c|#,:\n|c::\n"));
    cadence_free(&handle);
}

/* The texts of settings that clean texts. */
static void cleaned_texts(void) {
    const cadence_tag bad_tag = { NULL, 0, BAD, false };
    const cadence_tag tags[] = { cadence_tag_of("k:", "v:w|"), cadence_tag_of(NULL, "x:y") };
    const cadence_tag unkeyed = { BAD, BYTES("a,b"), false };
    cadence_settings settings = CADENCE_NO_SETTINGS;
    uint8_t out[24] = { 7 };
    size_t length = 9;
    CHECK(cadence_cleaned_text(BYTES("a:b,c|d\ne f"), out, 11, &length) == CADENCE_OK && length == 11);
    CHECK(memcmp(out, "a_b_c_d_e f", 11) == 0);
    out[0] = 7;
    CHECK(cadence_cleaned_text(BYTES("\xc3\xa9|"), out, 2, &length) == CADENCE_TOO_SMALL && length == 3 && out[0] == 7);
    CHECK(cadence_cleaned_text(BAD, out, sizeof out, &length) == CADENCE_NOT_UTF8 && length == 0);
    CHECK(cadence_cleaned_text(NULL, 0, NULL, 0, &length) == CADENCE_OK && length == 0);
    CHECK(cadence_prefix_text(BAD, false, true, out, 0, &length) == CADENCE_NOT_UTF8 && length == 0);
    CHECK(cadence_prefix_text(BYTES("a|:"), false, true, out, 4, &length) == CADENCE_OK && memcmp(out, "a__.", 4) == 0);
    CHECK(cadence_tags_text(&bad_tag, 1, false, true, out, 0, &length) == CADENCE_NOT_UTF8 && length == 0);
    CHECK(cadence_tags_text(&unkeyed, 1, false, true, out, 5, &length) == CADENCE_OK && memcmp(out, "|#a_b", 5) == 0);
    for (size_t room = 0; room < 18; room++) {
        length = 9;
        CHECK(cadence_settings_make_cleaned(&settings, ":", tags, 2, "c|d", room != 0 ? out : NULL, room, &length) == CADENCE_TOO_SMALL);
        CHECK(length == 18 && !settings.cleaned);
    }
    CHECK(cadence_settings_make_cleaned(&settings, ":", tags, 2, "c|d", out, 18, &length) == CADENCE_OK && length == 18);
    CHECK(memcmp(out, "_.|#k_:v:w_,x_yc_d", 18) == 0 && settings.cleaned && !settings.strict);
    CHECK(cadence_settings_make_cleaned(&settings, ":", tags, 2, NULL, out, 15, &length) == CADENCE_OK && length == 15);
    CHECK(!settings.contained);
    CHECK(cadence_settings_make_cleaned(&settings, "p", tags, 1, "\xff", out, 0, &length) == CADENCE_NOT_UTF8 && length == 0);
}

/* The lines of calls of settings that clean texts, known or not, and of settings that are strict as well. */
static void cleaned_calls(void) {
    static uint8_t room[64];
    size_t needed;
    cadence_settings settings;
    cadence_handle handle = opened(128, CADENCE_REFUSE);
    const cadence_tag odd = cadence_tag_of(",", "\n"), tags[] = { cadence_tag_of("k|", "v:w,"), cadence_tag_of(NULL, "x:y") };
    cadence_options options = cadence_options_of(tags, 2);
    options.container = (const uint8_t *)"c\nd", options.container_len = 3;
    CHECK(cadence_settings_make_cleaned(&settings, "|", &odd, 1, ":", room, sizeof room, &needed) == CADENCE_OK);
    for (int known = 0; known <= 1; known++) {
        options.known = known, options.contained = false;
        CHECK(cadence_count(&handle, &settings, "a:1|c\nb", 1, &options) == CADENCE_OK);
        CHECK(sends(&handle, "_.a_1_c_b:1|c|#_:_,k_:v:w_,x_y|c:_\n"));
        options.contained = true;
        CHECK(cadence_level_whole(&handle, &settings, "a|", -1, &options) == CADENCE_OK);
        CHECK(sends(&handle, "_.a_:0|g|#_:_,k_:v:w_,x_y|c:c_d\n_.a_:-1|g|#_:_,k_:v:w_,x_y|c:c_d\n"));
    }
    CHECK(cadence_set_text(&handle, &settings, "s:", "a,b", NULL) == CADENCE_OK && sends(&handle, "_.s_:a,b|s|#_:_|c:_\n"));
    CHECK(cadence_set_text(&handle, &settings, "s", "a:b", NULL) == CADENCE_INVALID);
    CHECK(cadence_count(&handle, &settings, "\xff", 1, NULL) == CADENCE_NOT_UTF8);
    settings.strict = true;
    CHECK(cadence_count(&handle, &settings, "a:1", 1, NULL) == CADENCE_SEPARATOR);
    cadence_free(&handle);
}

/* Returns whether a call with the cardinalities of these numbers, and with these external data, keeps the line that ends
 * with these texts, or is refused if a number is unknown. */
static bool enriches(cadence_handle *handle, const char *external, uint32_t ours, uint32_t own) {
    static const char *const texts[] = { "", "|card:none", "|card:low", "|card:orchestrator", "|card:high" };
    const cadence_tag tag = cadence_tag_of("k", "v");
    cadence_settings settings = CADENCE_NO_SETTINGS;
    cadence_options options = cadence_options_of(&tag, 1);
    char line[128];
    settings.container = (const uint8_t *)"id", settings.container_len = 2, settings.contained = true;
    settings.external = (const uint8_t *)external, settings.external_len = strlen(external), settings.cardinality = ours;
    options.time = 5, options.timed = true, options.cardinality = own;
    const uint32_t status = cadence_count(handle, &settings, "c", 1, &options);
    if (ours > CADENCE_CARDINALITY_HIGH || own > CADENCE_CARDINALITY_HIGH) return status == CADENCE_INVALID;
    snprintf(line, sizeof line, "c:1|c|#k:v|c:id%s%s%s|T5\n", *external != '\0' ? "|e:" : "", external,
             texts[own != CADENCE_NO_CARDINALITY ? own : ours]);
    return status == CADENCE_OK && sends(handle, line);
}

/* The external data of settings, and the cardinalities of settings and of options, which replace those. */
static void enrichments(void) {
    static const uint32_t numbers[] = { 0, 1, 2, 3, 4, 5, 7, 8, 256, 257, UINT32_C(1) << 31, UINT32_MAX };
    enum { NUMBERS = sizeof numbers / sizeof numbers[0] };
    cadence_handle handle = opened(256, CADENCE_REFUSE);
    cadence_settings settings = cadence_settings_of("p");
    cadence_options options = none;
    for (int i = 0; i < NUMBERS; i++)
        for (int j = 0; j < NUMBERS; j++)
            CHECK(enriches(&handle, "", numbers[i], numbers[j]) && enriches(&handle, "cn-web,pu-4a:\xc3\xa9", numbers[i], numbers[j]));
    CHECK(cadence_settings_enrich(&settings, "cn-web,it-false", CADENCE_CARDINALITY_LOW) == CADENCE_OK);
    CHECK(cadence_settings_enrich(&settings, "a|b", CADENCE_NO_CARDINALITY) == CADENCE_SEPARATOR);
    CHECK(cadence_settings_enrich(&settings, "a\nb", CADENCE_NO_CARDINALITY) == CADENCE_SEPARATOR);
    CHECK(cadence_settings_enrich(&settings, NULL, 5) == CADENCE_INVALID);
    CHECK(cadence_gauge(&handle, &settings, "g", 5, NULL) == CADENCE_OK && sends(&handle, "p.g:5|g|e:cn-web,it-false|card:low\n"));
    CHECK(cadence_change(&handle, &settings, "g", 5, NULL) == CADENCE_OK && sends(&handle, "p.g:+5|g|e:cn-web,it-false|card:low\n"));
    CHECK(cadence_set_text(&handle, &settings, "s", "m", NULL) == CADENCE_OK && sends(&handle, "p.s:m|s|e:cn-web,it-false|card:low\n"));
    options.cardinality = CADENCE_CARDINALITY_NONE;
    settings.cleaned = true;
    CHECK(cadence_count(&handle, &settings, "a:b", 1, &options) == CADENCE_OK && sends(&handle, "p.a_b:1|c|e:cn-web,it-false|card:none\n"));
    settings.strict = true;
    CHECK(cadence_count(&handle, &settings, "a", 1, &options) == CADENCE_OK && sends(&handle, "p.a:1|c|e:cn-web,it-false|card:none\n"));
    CHECK(cadence_settings_enrich(&settings, NULL, CADENCE_NO_CARDINALITY) == CADENCE_OK);
    CHECK(cadence_count(&handle, &settings, "a", 1, NULL) == CADENCE_OK && sends(&handle, "p.a:1|c\n"));

    /* the order: after the texts in UTF-8, and before separators */
    options.cardinality = 5;
    CHECK(cadence_count(&handle, &settings, "\xff", 1, &options) == CADENCE_NOT_UTF8);
    CHECK(cadence_count(&handle, &settings, "a:b", 1, &options) == CADENCE_INVALID);
    options.container = (const uint8_t *)"\xff", options.container_len = 1, options.contained = true;
    CHECK(cadence_count(&handle, &settings, "a", 1, &options) == CADENCE_NOT_UTF8);
    settings.external = (const uint8_t *)"\xff", settings.external_len = 1;
    CHECK(cadence_count(&handle, &settings, "a", 1, NULL) == CADENCE_NOT_UTF8);
    cadence_free(&handle);
}

static void what_stays(void) {
    cadence_handle handle = CADENCE_CLOSED;
    const cadence_tag unkeyed = { BAD, BYTES("w"), false };
    const cadence_options tagged = cadence_options_of(&unkeyed, 1);
    cadence_counts_of counts = { 1, 2, 3, 4, 5 };
    size_t length = 9;
    uint8_t byte = 7;
    CHECK(cadence_next(&handle, &byte, 1, &length) == CADENCE_NO_CLIENT && length == 0 && byte == 7);
    CHECK(cadence_counts(&handle, &counts) == CADENCE_NO_CLIENT && counts.held == 1 && counts.dropped == 5);
    handle = opened(64, CADENCE_DROP_OLDEST);
    length = 9;
    CHECK(cadence_next(&handle, &byte, 1, &length) == CADENCE_NO_PACKET && length == 0 && byte == 7);
    CHECK(cadence_count(&handle, NULL, "c", 1, &tagged) == CADENCE_OK && cadence_flush(&handle) == CADENCE_OK);
    CHECK(cadence_next(&handle, &byte, 1, &length) == CADENCE_TOO_SMALL && length == 9 && byte == 7);
    CHECK(sends(&handle, "c:1|c|#w\n"));
    cadence_free(&handle);
    cadence_free(&handle);
}

static void held_text(void) {
    cadence_handle handle = CADENCE_CLOSED;
    uint8_t text[16] = { 7 };
    size_t length = 9;
    CHECK(cadence_held(&handle, text, 1, &length) == CADENCE_NO_CLIENT && length == 0 && cadence_drop_held(&handle) == CADENCE_NO_CLIENT);
    handle = opened(8, CADENCE_REFUSE);
    CHECK(cadence_held(&handle, text, 0, &length) == CADENCE_OK && length == 0 && cadence_drop_held(&handle) == CADENCE_OK);
    CHECK(cadence_raw(&handle, "a:1") == CADENCE_OK);
    CHECK(cadence_held(&handle, text, 3, &length) == CADENCE_TOO_SMALL && length == 4 && text[0] == 7);
    CHECK(cadence_held(&handle, text, 4, &length) == CADENCE_OK && length == 4 && memcmp(text, "a:1\n", 4) == 0);
    CHECK(cadence_drop_held(&handle) == CADENCE_OK && cadence_held(&handle, text, 4, &length) == CADENCE_OK && length == 0);
    CHECK(cadence_raw(&handle, "b:1") == CADENCE_OK && cadence_raw(&handle, "c:12345") == CADENCE_OK);
    CHECK(cadence_drop_held(&handle) == CADENCE_FULL && cadence_held(&handle, text, 16, &length) == CADENCE_OK && length == 8);
    CHECK(cadence_next(&handle, text, 16, &length) == CADENCE_OK && length == 4 && cadence_sent(&handle) == CADENCE_OK);
    CHECK(cadence_drop_held(&handle) == CADENCE_OK && cadence_flush(&handle) == CADENCE_OK);
    CHECK(cadence_next(&handle, text, 16, &length) == CADENCE_NO_PACKET);
    cadence_free(&handle);
}

#ifdef __cplusplus
extern "C"
#endif
size_t *cadence_c_lend(void); /* of heap.c, whose functions only a program with the static library sees */

/* Writes lines that fit into the room of the heap, fill it and pass it, with the room and without it. */
static void lent_room(void) {
    static uint8_t key[3000], out[2][sizeof key + 16];
    memset(key, 'k', sizeof key);
    for (size_t len = 0; len <= sizeof key; len++) {
        size_t lengths[2] = { 0, 0 };
        for (int lent = 0; lent <= 1; lent++) {
            size_t *const left = cadence_c_lend();
            if (lent == 0) *left = 0;
            CHECK(cadence_format_signed(&nothing, CADENCE_COUNTER, key, len, &one, 1, &none, out[lent], sizeof out[lent],
                                        &lengths[lent]) == CADENCE_OK);
            *left = 0;
        }
        CHECK(lengths[0] == len + 4 && lengths[1] == lengths[0] && memcmp(out[0], out[1], lengths[0]) == 0);
    }
}

int main(void) {
    texts();
    helpers();
    doubles();
    texts_of_settings();
    prefixes_have_one_dot();
    integers();
    order_of_a_client();
    texts_of_each_length();
    order_of_a_call();
    levels_in_packets();
    order_of_a_line();
    samples();
    strict();
    cleaned_texts();
    cleaned_calls();
    enrichments();
    what_stays();
    held_text();
    lent_room();
    return failures != 0;
}
