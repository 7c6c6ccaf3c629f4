/* SPDX-License-Identifier: Apache-2.0 OR MIT */
/* fuzz SEQUENCES [SEED]: makes random calls with a heap that fails at random. It compares what is sent with the frames of
 * the lines whose calls returned CADENCE_OK. If a call returns another status, the counts must be as they were before
 * it. Strict settings must refuse just the texts with a separator, other than colons after the keys of tags. Of settings
 * that clean texts, it compares the lines and the texts with those of texts that it cleaned itself. Before these calls it makes keys and adds numbers by them, and the heap refuses each request in turn. It prints the first
 * fault, and its exit status is then 1. At the end it prints a checksum of all statuses, lines and packets, which is the
 * same on each processor for the same words. */
#include "cadence.h"
#include <inttypes.h>
#include <stdio.h>
#include <stdlib.h>
#include <string.h>

typedef struct {
    uint64_t given;
    void *at;
} block;

static uint64_t seed, nowhere;
static long blocks, refuse_at, requests, lines, packets_sent;

/* The checksum (FNV-1a) of what the calls wrote and returned. */
static uint64_t sum = 14695981039346656037u;

static void add_to_sum(const void *at, size_t length) {
    for (size_t i = 0; i < length; i++) sum = (sum ^ ((const uint8_t *)at)[i]) * 1099511628211u;
}

static uint32_t below(uint32_t n) {
    seed = seed * 6364136223846793005u + 1442695040888963407u;
    return (uint32_t)(seed >> 33) % n;
}

static bool refused(void) {
    return ++requests == refuse_at;
}

block cadence_c_alloc(size_t size, size_t align) {
    void *at = refused() ? NULL : malloc(size != 0 ? size : align);
    blocks += at != NULL;
    return (block){ at != NULL, at != NULL ? at : &nowhere };
}

block cadence_c_realloc(void *at, size_t old_size, size_t size, size_t align) {
    (void)old_size;
    at = refused() ? NULL : realloc(at, size != 0 ? size : align);
    return (block){ at != NULL, at != NULL ? at : &nowhere };
}

void cadence_c_dealloc(void *at) {
    blocks -= at != NULL;
    free(at);
}

static void fail(const char *what, uint32_t status) {
    printf("%s: status %u\n", what, status);
    exit(1);
}

enum { ROOM = 1 << 16, LONGEST = 4096 };

/* A handle, and what its client must have kept. */
typedef struct {
    cadence_handle handle;
    uint8_t stream[ROOM]; /* the frames of all lines that were kept */
    size_t kept, fetched;
    size_t capacity;
    bool drops;
} host;

/* Texts are pieces of these bytes. A piece that ends or begins inside the last bytes may not be UTF-8. */
static uint8_t texts[] = "counter.of.things.that.happen.now.and.then:1|c#,\n@\x7f\xc3\xa9\xff";
enum { PLAIN = 48 };

typedef struct {
    const uint8_t *at;
    size_t length;
} text;

/* Whether each text that was made since this was last set to true is certainly UTF-8. */
static bool all_plain;

static text some_text(void) {
    size_t end = below(16) == 0 ? sizeof texts : PLAIN, from = below((uint32_t)end);
    text t = { texts + from, below((uint32_t)(end - from) + 1) };
    if (end != PLAIN) all_plain = false;
    if (below(8) == 0) t = (text){ NULL, 0 };
    return t;
}

static bool is_free(const uint8_t *at, size_t length) {
    for (size_t i = 0; i < length; i++)
        if (at[i] == ':' || at[i] == ',' || at[i] == '|' || at[i] == '\n') return false;
    return true;
}

/* The text of a tag with a key may have colons. */
static bool is_clear_tag(const cadence_tag *tag) {
    if (!tag->keyed) return is_free(tag->text, tag->text_len);
    for (size_t i = 0; i < tag->text_len; i++)
        if (tag->text[i] != ':' && !is_free(tag->text + i, 1)) return false;
    return is_free(tag->key, tag->key_len);
}

static bool is_clear_call(text key, const cadence_options *options) {
    bool all = is_free(key.at, key.length);
    for (size_t i = 0; i < options->tags_len; i++) all = all && is_clear_tag(&options->tags[i]);
    return all && (!options->contained || is_free(options->container, options->container_len));
}

/* Compares a status with whether the texts have no separator but colons after keys. Strict settings refuse the others,
 * before the client looks for room. */
static uint32_t strictly(bool strict, bool free_texts, uint32_t status) {
    if (status == CADENCE_SEPARATOR && (!strict || free_texts)) fail("a call without a separator is refused", status);
    if ((status == CADENCE_OK || status == CADENCE_FULL || status == CADENCE_TOO_SMALL) && strict && !free_texts) fail("a separator is kept", status);
    return status;
}

/* Texts that this program cleaned itself, of one call. */
static uint8_t cleaned_texts[1024];
static size_t cleaned_len;

/* Returns a text with a '_' in place of each separator, other than colons if they stay. */
static text cleaned_of(const uint8_t *at, size_t length, bool colons_stay) {
    uint8_t *const to = cleaned_texts + cleaned_len;
    for (size_t i = 0; i < length; i++)
        to[i] = is_free(at + i, 1) || (colons_stay && at[i] == ':') ? at[i] : '_';
    cleaned_len += length;
    return (text){ to, length };
}

static void clean_tags(const cadence_tag *from, size_t count, cadence_tag *to) {
    for (size_t i = 0; i < count; i++) {
        const text key = cleaned_of(from[i].key, from[i].key_len, false);
        const text value = cleaned_of(from[i].text, from[i].text_len, from[i].keyed);
        to[i] = (cadence_tag){ key.at, key.length, value.at, value.length, from[i].keyed };
    }
}

static bool is_same(const uint8_t *at, size_t length, const uint8_t *other, size_t other_length) {
    return length == other_length && (length == 0 || memcmp(at, other, length) == 0);
}

static cadence_tag some_tag(void) {
    text key = some_text(), value = some_text();
    cadence_tag tag = { key.at, key.length, value.at, value.length, below(2) };
    return tag;
}

static cadence_tag tags[4];

/* The settings of later calls. Their texts are in `room`, or pieces of `texts`. */
static uint8_t room[640];
static cadence_settings settings = CADENCE_NO_SETTINGS;
static bool plain_settings = true;

static cadence_options some_options(void) {
    cadence_options options = CADENCE_NO_OPTIONS;
    text container = some_text();
    for (int i = 0; i < 4; i++) tags[i] = some_tag();
    options.tags = below(2) ? tags : NULL;
    options.tags_len = options.tags != NULL ? below(5) : 0;
    options.container = container.at, options.container_len = container.length;
    options.rate = (cadence_decimal_number){ (int64_t)below(1000) - 500, (uint8_t)below(32) };
    options.time = (uint64_t)below(1u << 31) << below(33);
    options.known = all_plain && plain_settings && below(2);
    options.contained = below(3) == 0, options.rated = below(3) == 0, options.timed = below(3) == 0;
    options.cardinality = below(12) == 0 ? 5 : below(5);
    return options;
}

static void keeps(host *h, const uint8_t *line, size_t length) {
    bool fits = length < h->capacity;
    if (h->kept + length + 1 > ROOM) fail("the stream has no room", 0);
    if (length != 0) memcpy(h->stream + h->kept, line, length);
    h->kept += length;
    if (fits) h->stream[h->kept++] = '\n';
}

static void fetch(host *h) {
    static uint8_t packet[LONGEST];
    size_t length = 1, most = below(4) == 0 ? below(64) : sizeof packet;
    uint32_t status = cadence_next(&h->handle, most != 0 ? packet : NULL, most, &length);
    if (status == CADENCE_TOO_SMALL && length <= most) fail("a packet that fits is too long", status);
    if ((status == CADENCE_NO_PACKET || status == CADENCE_NO_CLIENT) && length != 0) fail("a length of no packet", status);
    if (status != CADENCE_OK) return;
    add_to_sum(packet, length);
    if (!h->drops && (h->fetched + length > h->kept || memcmp(packet, h->stream + h->fetched, length) != 0))
        fail("a packet has other bytes", status);
    if (below(3) == 0) return;
    status = cadence_sent(&h->handle);
    if (status != CADENCE_OK) fail("a packet can't be dropped", status);
    h->fetched += length;
    packets_sent++;
}

/* Fetches the held text and drops it, as a host does that sends at once. */
static void fetch_held(host *h) {
    static uint8_t text_held[LONGEST];
    cadence_counts_of counts = { 0, 0, 0, 0, 0 };
    size_t length = 1;
    if (cadence_counts(&h->handle, &counts) != CADENCE_OK) return;
    uint32_t status = cadence_held(&h->handle, text_held, sizeof text_held, &length);
    if (status != CADENCE_OK || length != counts.held) fail("the held text has another length", status);
    status = cadence_drop_held(&h->handle);
    if ((status == CADENCE_FULL) != (counts.waiting != 0)) fail("the held text is dropped before a packet", status);
    if (status != CADENCE_OK) return;
    add_to_sum(text_held, length);
    if (!h->drops && (h->fetched + length > h->kept || memcmp(text_held, h->stream + h->fetched, length) != 0))
        fail("the held text has other bytes", status);
    h->fetched += length;
}

static void opens(host *h) {
    size_t capacity = below(4) == 0 ? below(8) : below(200), packets = below(12) == 0 ? below(2) : 2 + below(3);
    uint32_t policy = below(12) == 0 ? 2 : below(2), status;
    status = cadence_open(&h->handle, capacity, packets, policy);
    if (status == CADENCE_OK && (packets < 2 || policy > 1)) fail("a client of nothing", status);
    if (status != CADENCE_OK) return;
    h->kept = h->fetched = 0;
    h->capacity = capacity, h->drops = policy == CADENCE_DROP_OLDEST;
}

/* Makes the default container of settings, which have their other texts. */
static uint32_t makes_container(cadence_settings *made, text container) {
    if (made->strict)
        return strictly(true, is_free(container.at, container.length), cadence_test_text(container.at, container.length));
    if (!made->cleaned) return CADENCE_OK;
    const size_t used = made->prefix_len + made->tags_len;
    made->container = room + used;
    return cadence_cleaned_text(container.at, container.length, room + used, sizeof room - used, &made->container_len);
}

/* Compares the texts of settings that clean texts with those of texts that this program cleaned itself. */
static void compare_settings(const cadence_settings *made, text prefix, size_t count, text container) {
    static uint8_t other[sizeof room];
    cadence_tag own[4];
    size_t length = 0;
    cleaned_len = 0;
    prefix = cleaned_of(prefix.at, prefix.length, false);
    container = cleaned_of(container.at, container.length, false);
    clean_tags(tags, count, own);
    uint32_t status = cadence_prefix_text(prefix.at, prefix.length, false, false, other, sizeof other, &length);
    if (status != CADENCE_OK || !is_same(made->prefix, made->prefix_len, other, length)) fail("a prefix is not cleaned", status);
    status = cadence_tags_text(own, count, false, false, other, sizeof other, &length);
    if (status != CADENCE_OK || !is_same(made->tags, made->tags_len, other, length)) fail("tags are not cleaned", status);
    if (made->contained && !is_same(made->container, made->container_len, container.at, container.length))
        fail("a container is not cleaned", status);
}

/* Makes settings of random texts. If a text is refused, later calls have no settings. */
static void sets(void) {
    all_plain = true;
    const text prefix = some_text(), container = some_text(), external = below(2) ? some_text() : (text){ NULL, 0 };
    cadence_settings made = CADENCE_NO_SETTINGS;
    bool are_clear_tags = true;
    size_t n = below(5), length = sizeof room;
    for (size_t i = 0; i < n; i++) tags[i] = some_tag(), are_clear_tags = are_clear_tags && is_clear_tag(&tags[i]);
    requests = 0, refuse_at = below(4) == 0 ? 1 + below(3) : 0;
    made.strict = below(3) == 0, made.cleaned = below(3) == 0, made.contained = below(2);
    made.container = container.at, made.container_len = container.length;
    made.external = external.at, made.external_len = external.length, made.cardinality = below(12) == 0 ? 5 : below(5);
    uint32_t status = cadence_prefix_text(prefix.at, prefix.length, made.strict, made.cleaned, room, length, &made.prefix_len);
    strictly(made.strict, is_free(prefix.at, prefix.length), status);
    made.prefix = room, made.tags = room + made.prefix_len, length -= made.prefix_len;
    if (status == CADENCE_OK) {
        status = cadence_tags_text(n != 0 ? tags : NULL, n, made.strict, made.cleaned, room + made.prefix_len, length,
                                   &made.tags_len);
        strictly(made.strict, are_clear_tags, status);
    }
    if (status == CADENCE_OK && made.contained) status = makes_container(&made, container);
    refuse_at = 0;
    if (status == CADENCE_OK && made.cleaned) compare_settings(&made, prefix, n, container);
    settings = (cadence_settings)CADENCE_NO_SETTINGS;
    plain_settings = true;
    if (status == CADENCE_OK) settings = made, plain_settings = all_plain;
}

/* Returns a double of random bits. */
static double some_double(void) {
    const uint64_t bits = (uint64_t)below(1u << 31) << 33 | (uint64_t)below(1u << 31) << 2 | below(4);
    double number;
    memcpy(&number, &bits, sizeof number);
    return number;
}

/* Writes a line without a client, with any kind of value. */
static uint32_t formats(text key, const cadence_options *options, uint8_t *line, size_t most, size_t *length) {
    int64_t values[3] = { below(5) - 2, (int64_t)below(1u << 31) << below(33), INT64_MIN };
    uint64_t whole[3] = { below(5), UINT64_MAX, (uint64_t)below(1u << 31) << below(33) };
    cadence_decimal_number numbers[3] = { { -25, 1 }, { INT64_MIN, (uint8_t)below(33) }, { (int64_t)below(100), 30 } };
    const double floats[3] = { below(100) / 8.0, some_double(), some_double() };
    size_t n = below(4);
    const text member = some_text();
    uint32_t kind = below(12) == 0 ? 8 : below(8); /* CADENCE_CHANGE is 7 */
    switch (below(6)) {
    case 0: return cadence_format_unsigned(&settings, kind, key.at, key.length, n != 0 ? whole : NULL, n, options, line, most, length);
    case 1: return cadence_format_decimal(&settings, kind, key.at, key.length, numbers, n, options, line, most, length);
    case 2: return cadence_format_floating(&settings, kind, key.at, key.length, floats, n, options, line, most, length);
    case 3: return cadence_format_duration(&settings, kind, key.at, key.length, whole, n, options, line, most, length);
    case 4: return cadence_format_member(&settings, key.at, key.length, member.at, member.length, options, line, most, length);
    default: return cadence_format_signed(&settings, kind, key.at, key.length, n != 0 ? values : NULL, n, options, line, most, length);
    }
}

/* Makes a call again that wrote this line, from the same random numbers, but with texts that this program cleaned itself
 * and with settings that clean none. It must write the same line. */
static void compare_line(uint64_t seed_before, text key, cadence_options options, const uint8_t *line, size_t length) {
    static uint8_t other[LONGEST];
    const uint64_t seed_after = seed;
    const long refused_request = refuse_at;
    cadence_tag own[4];
    size_t other_length = 0;
    cleaned_len = 0;
    key = cleaned_of(key.at, key.length, false);
    options.container = cleaned_of(options.container, options.container_len, false).at;
    clean_tags(options.tags, options.tags_len, own);
    options.tags = own;
    settings.cleaned = false, refuse_at = 0, seed = seed_before;
    const uint32_t status = formats(key, &options, other, sizeof other, &other_length);
    settings.cleaned = true, refuse_at = refused_request, seed = seed_after;
    if (status != CADENCE_OK || !is_same(line, length, other, other_length)) fail("a line is not cleaned", status);
}

/* Formats a line without a client, and keeps it by cadence_line. */
static uint32_t keeps_line(host *h) {
    static uint8_t line[LONGEST];
    all_plain = true;
    text key = some_text();
    cadence_options options = some_options();
    size_t length = 1, most = below(6) == 0 ? below(40) : sizeof line;
    const uint64_t seed_before = seed;
    uint32_t status = formats(key, &options, line, most, &length);
    const long made_requests = requests;
    strictly(settings.strict, is_clear_call(key, &options), status);
    if (status == CADENCE_TOO_SMALL ? length <= most : status != CADENCE_OK && length != 0) fail("a length of no line", status);
    if (status != CADENCE_OK) return status;
    if (settings.cleaned) compare_line(seed_before, key, options, line, length);
    requests = made_requests;
    add_to_sum(line, length);
    status = cadence_line(&h->handle, line, length);
    if (status == CADENCE_OK) keeps(h, line, length);
    return status;
}

/* Makes a call that keeps the line of a value. */
static uint32_t keeps_value_of(host *h, text key, cadence_options options) {
    uint64_t whole[3] = { below(5), UINT64_MAX, (uint64_t)below(1u << 31) << below(33) };
    cadence_decimal_number numbers[3] = { { -25, 1 }, { INT64_MIN, (uint8_t)below(33) }, { (int64_t)below(100), 30 } };
    const double floats[3] = { below(100) / 8.0, some_double(), some_double() };
    size_t n = below(4);
    const text member = some_text();
    uint32_t kind = below(12) == 0 ? 8 : below(8);
    switch (below(6)) {
    case 0: return cadence_unsigned(&h->handle, &settings, kind, key.at, key.length, n != 0 ? whole : NULL, n, &options);
    case 1: return cadence_decimal(&h->handle, &settings, kind, key.at, key.length, numbers, n, &options);
    case 2: return cadence_floating(&h->handle, &settings, kind, key.at, key.length, floats, n, &options);
    case 3: return cadence_duration(&h->handle, &settings, kind, key.at, key.length, whole, n, &options);
    case 4: return cadence_member(&h->handle, &settings, key.at, key.length, member.at, member.length, &options);
    default: return cadence_signed(&h->handle, &settings, kind, key.at, key.length, (const int64_t *)whole, n, &options);
    }
}

/* Makes a call that keeps the line of a value. This program doesn't know that line, so it can't compare the packets.
 * Therefore it makes the call only for a client that drops packets, whose packets aren't compared. */
static uint32_t keeps_value(host *h) {
    all_plain = true;
    text key = some_text();
    cadence_options options = some_options();
    if (!h->drops) return keeps_line(h);
    return strictly(settings.strict, is_clear_call(key, &options), keeps_value_of(h, key, options));
}

static uint32_t acts(host *h) {
    switch (below(4)) {
    case 0: return cadence_flush(&h->handle);
    case 1: return keeps_line(h);
    default: return keeps_value(h);
    }
}

static void step(host *h) {
    cadence_counts_of before = { 0, 0, 0, 0, 0 }, after = { 0, 0, 0, 0, 0 };
    uint32_t closed = cadence_counts(&h->handle, &before), status;
    requests = 0, refuse_at = below(3) == 0 ? 1 + below(5) : 0;
    status = acts(h);
    refuse_at = 0;
    add_to_sum(&status, sizeof status);
    cadence_counts(&h->handle, &after);
    if (closed != CADENCE_OK && status == CADENCE_OK) fail("a closed handle kept a line", status);
    lines += status == CADENCE_OK;
    if (status != CADENCE_OK && memcmp(&before, &after, sizeof before) != 0) fail("a refusal changed the counts", status);
    if (status == CADENCE_FULL && (h->drops || before.waiting == 0)) fail("full with room", status);
    if (after.made - after.sent - after.dropped != after.waiting) fail("the counts do not add up", status);
}

static void run(host *h) {
    opens(h);
    for (uint32_t n = 2 + below(12); n > 0; n--) {
        if (below(24) == 0) cadence_free(&h->handle);
        else if (below(24) == 0) opens(h);
        else if (below(12) == 0) sets();
        else if (below(8) == 0) fetch_held(h);
        else if (below(4) == 0) fetch(h);
        else step(h);
    }
    while (cadence_flush(&h->handle) == CADENCE_FULL) fetch(h);
    for (cadence_counts_of c; cadence_counts(&h->handle, &c) == CADENCE_OK && c.waiting != 0;) fetch(h);
    if (h->handle.open && !h->drops && h->fetched != h->kept) fail("some lines were not sent", 0);
    cadence_free(&h->handle);
    if (blocks != 0) fail("blocks are left", (uint32_t)blocks);
}

/* Lets the heap refuse the request of this number in the next call. */
static void refuse(long at) {
    requests = 0, refuse_at = at;
}

/* Returns whether a call ran out of memory. Any other status than CADENCE_OK is a fault. */
static bool ran_out(uint32_t status) {
    refuse_at = 0;
    if (status != CADENCE_OK && status != CADENCE_NO_MEMORY) fail("a call by a key", status);
    return status != CADENCE_OK;
}

/* Makes this key, which gets this number. The heap refuses the first request, then the second one, and so on, until the
 * key is made. A refused call must keep no memory and write no number. */
static void makes_key(cadence_sums *sums, const char *line, size_t number) {
    const long kept = blocks;
    long request = 0;
    size_t key = SIZE_MAX;
    do {
        if (blocks != kept || key != SIZE_MAX) fail("a refused key stays", CADENCE_NO_MEMORY);
        refuse(++request);
    } while (ran_out(cadence_make_key(sums, (const uint8_t *)line, strlen(line), &key)));
    if (request == 1) fail("a key takes no memory", CADENCE_OK);
    if (key != number) fail("a key has another number", CADENCE_OK);
}

/* Adds 2 by the key with this number. The heap refuses the first request, then the second one, and so on, until the
 * number is added. Returns how many calls were refused. */
static long adds_number(cadence_sums *sums, cadence_handle *handle, size_t key) {
    long request = 0;
    do refuse(++request);
    while (ran_out(cadence_add_number(sums, handle, key, 2)));
    return request - 1;
}

/* Makes keys, adds 2 twice by each, and compares what the client gets. So a refused call has added nothing and has lost
 * nothing. The lines of the last key are longer than 16 bytes, so they are not held. */
static void adds_by_keys(void) {
    static const char *const made[] = { "a:1|c", "b:1|c", "c:1|c", "d:1|c", "e:1|g", "f:1|g", "longer_than_that:1|c" };
    static const char wanted[] = "longer_than_that:2|c\nlonger_than_that:2|c\na:4|c\nb:4|c\nc:4|c\nd:4|c\ne:2|g\nf:2|g\n";
    enum { KEYS = sizeof made / sizeof made[0] };
    cadence_handle handle = CADENCE_CLOSED;
    cadence_sums sums = CADENCE_CLOSED;
    uint8_t packet[sizeof wanted];
    size_t length = 0;
    long refusals = 0, request = 0;
    if (ran_out(cadence_open(&handle, sizeof wanted, 2, CADENCE_REFUSE))) fail("no client", CADENCE_NO_MEMORY);
    if (ran_out(cadence_open_sums(&sums, KEYS, 16, false))) fail("no sums", CADENCE_NO_MEMORY);
    for (size_t i = 0; i < KEYS; i++) makes_key(&sums, made[i], i);
    for (size_t i = 0; i < 2 * KEYS; i++) refusals += adds_number(&sums, &handle, i % KEYS);
    if (refusals < KEYS) fail("numbers take no memory", CADENCE_OK);
    do refuse(++request);
    while (ran_out(cadence_flush_sums(&sums, &handle)));
    if (ran_out(cadence_flush(&handle)) || ran_out(cadence_next(&handle, packet, sizeof packet, &length))) fail("no packet", CADENCE_NO_MEMORY);
    if (length != strlen(wanted) || memcmp(packet, wanted, length) != 0) fail("other numbers were added", CADENCE_OK);
    cadence_free_sums(&sums);
    cadence_free(&handle);
    if (blocks != 0) fail("blocks are left", (uint32_t)blocks);
}

int main(int count, char **words) {
    static host h;
    adds_by_keys();
    long sequences = count > 1 ? atol(words[1]) : 1000;
    seed = count > 2 ? strtoull(words[2], NULL, 10) : 1;
    for (long i = 0; i < sequences; i++) {
        h.handle = (cadence_handle)CADENCE_CLOSED;
        run(&h);
    }
    printf("%ld sequences, %ld calls answered 0, %ld packets, sum %016" PRIx64 "\n", sequences, lines, packets_sent, sum);
    return 0;
}
