/* SPDX-License-Identifier: Apache-2.0 OR MIT */
/* Reads the text of a decimal number, as that of a Decimal of Python: -12.50 or 1.5E-7. */
#include "core.h"

enum { MOST_PLACES = 30 }; /* of a decimal of the library */

static bool is_digit(char byte) {
    return byte >= '0' && byte <= '9';
}

/* Reads what comes after the e. A number whose exponent is far away from 0 is 0 or doesn't fit, so the rest of a long
 * exponent makes no difference. */
static bool exponent_of(const char *at, const char *end, long long *to) {
    const bool below = at < end && *at == '-';
    if (at < end && (*at == '-' || *at == '+')) at++;
    if (at == end) return false;
    for (*to = 0; at < end; at++) {
        if (!is_digit(*at)) return false;
        if (*to < 1000000000000) *to = *to * 10 + (*at - '0');
    }
    if (below) *to = -*to;
    return true;
}

/* Counts the digits before the e, and those of them after the point. Returns where they end, or null if there are none or
 * another byte is among them. */
static const char *digits_of(const char *at, const char *end, long long *fraction) {
    bool has_digits = false, has_point = false;
    for (*fraction = 0; at < end && *at != 'e' && *at != 'E'; at++) {
        if (!is_digit(*at) && (*at != '.' || has_point)) return NULL;
        has_digits = has_digits || *at != '.';
        *fraction += has_point;
        has_point = has_point || *at == '.';
    }
    return has_digits ? at : NULL;
}

/* Reads the digits as a whole number, which is one more if it was rounded up. */
static bool whole_of_digits(const char *at, const char *end, bool up, uint64_t *to) {
    for (*to = 0; at < end; at++) {
        if (*at == '.') continue;
        if (__builtin_mul_overflow(*to, 10, to) || __builtin_add_overflow(*to, (uint64_t)(*at - '0'), to)) return false;
    }
    return !__builtin_add_overflow(*to, (uint64_t)up, to);
}

bool decimal_of_text(const char *at, size_t len, decimal_of_python *to) {
    const char *const end = at + len;
    long long fraction, exponent = 0;
    to->below = len != 0 && *at == '-';
    if (len != 0 && (*at == '-' || *at == '+')) at++;
    const char *last = digits_of(at, end, &fraction);
    if (last == NULL || (last < end && !exponent_of(last + 1, end, &exponent))) return false;
    long long places = fraction - exponent;
    bool up = false;
    for (; places > MOST_PLACES && last > at; last--) {
        if (last[-1] == '.') continue;
        up = last[-1] >= '5';
        places--;
    }
    if (places > MOST_PLACES) up = false;
    /* zeros at the end are left out, and so are the nines over which rounding up carries */
    for (; places > 0 && last > at && (last[-1] == (up ? '9' : '0') || last[-1] == '.'); last--) places -= last[-1] != '.';
    if (!whole_of_digits(at, last, up, &to->digits)) return false;
    if (to->digits == 0) places = 0;
    for (; places < 0; places++)
        if (__builtin_mul_overflow(to->digits, 10, &to->digits)) return false;
    to->places = (uint8_t)places;
    return true;
}
