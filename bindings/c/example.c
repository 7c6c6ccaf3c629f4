/* SPDX-License-Identifier: Apache-2.0 OR MIT */
/* Sends metrics to a socket of its own on the loopback address. It prints the status of each call that keeps no line,
 * and then the datagrams that arrive. For some of the calls the socket refuses each packet, and one packet is longer
 * than any datagram. */
#include "cadence.h"
#include <arpa/inet.h>
#include <errno.h>
#include <stdio.h>
#include <string.h>
#include <sys/socket.h>

enum { LONGEST = 65507 }; /* the most bytes that a UDP datagram holds */

static int server, client;
static cadence_settings settings;
static struct sockaddr_in to;

/* Sends the packets that wait. A packet that is too long for a datagram is dropped, because otherwise no later packet
 * could be sent. A packet that the socket refuses for now still waits. */
static void send_waiting(cadence_handle *handle) {
    static uint8_t packet[LONGEST];
    size_t length;
    for (;;) {
        const uint32_t status = cadence_next(handle, packet, sizeof packet, &length);
        const bool too_long = status == CADENCE_TOO_SMALL;
        if (status != CADENCE_OK && !too_long) return;
        if (!too_long && sendto(client, packet, length, 0, (struct sockaddr *)&to, sizeof to) < 0 && errno != EMSGSIZE) return;
        if (too_long) printf("a packet of %zu bytes is dropped\n", length);
        cadence_sent(handle);
    }
}

/* Adds to a counter. If the queue of packets is full, it sends the packets and makes the call again. */
static void count(cadence_handle *handle, const char *key, int64_t value, const cadence_options *options) {
    uint32_t status = cadence_count(handle, &settings, key, value, options);
    if (status == CADENCE_FULL) {
        send_waiting(handle);
        status = cadence_count(handle, &settings, key, value, options);
    }
    if (status != CADENCE_OK) printf("%s\n", cadence_status_text(status));
}

static void flush(cadence_handle *handle) {
    send_waiting(handle);
    const uint32_t status = cadence_flush(handle);
    if (status != CADENCE_OK) printf("flush: %s\n", cadence_status_text(status));
    send_waiting(handle);
}

static int open_sockets(void) {
    socklen_t size = sizeof to;
    server = socket(AF_INET, SOCK_DGRAM, 0);
    client = socket(AF_INET, SOCK_DGRAM, 0);
    to.sin_family = AF_INET;
    to.sin_addr.s_addr = htonl(INADDR_LOOPBACK);
    return bind(server, (struct sockaddr *)&to, sizeof to) || getsockname(server, (struct sockaddr *)&to, &size);
}

static void counters(cadence_handle *handle) {
    const cadence_tag page[] = { cadence_tag_of("page", "home"), cadence_tag_of(NULL, "beta") };
    cadence_options tagged = cadence_options_of(page, 2);
    tagged.rated = true, tagged.rate = (cadence_decimal_number){ 50, 2 };
    for (int i = 0; i < 4; i++) count(handle, "visits", i, NULL);
    count(handle, "requests", -7, &tagged);
    count(handle, "\xff", 1, NULL);
    count(handle, "a.key.that.is.too.long.for.a.packet.of.sixty.four.bytes", 1, NULL);
    flush(handle);
}

static void other_kinds(cadence_handle *handle) {
    const uint64_t sizes[] = { 1, 22, 333 };
    const cadence_options none = CADENCE_NO_OPTIONS;
    cadence_unsigned(handle, &settings, CADENCE_HISTOGRAM, (const uint8_t *)"sizes", 5, sizes, 3, &none);
    cadence_parts(handle, &settings, CADENCE_GAUGE, "load", -1250, 3, NULL);
    flush(handle);
    cadence_time_nanos(handle, &settings, "took", 1999999, NULL);
    cadence_raw(handle, "own:1|c");
    flush(handle);
}

/* Sets the port to 0 for a while. No datagram can go there, so the socket refuses each packet meanwhile. */
static void refusals(cadence_handle *handle) {
    const in_port_t port = to.sin_port;
    to.sin_port = 0;
    for (int i = 0; i < 7; i++) count(handle, "kept", i, NULL);
    to.sin_port = port;
    flush(handle);
}

static void long_line(cadence_handle *handle) {
    static char key[70000];
    memset(key, 'x', sizeof key - 1);
    count(handle, key, 1, NULL);
    flush(handle);
    count(handle, "after", 1, NULL);
    flush(handle);
}

int main(void) {
    static uint8_t room[64];
    size_t needed;
    const cadence_tag env = cadence_tag_of("env", "prod");
    cadence_handle handle = CADENCE_CLOSED;
    if (open_sockets()) return 1;
    if (cadence_settings_make(&settings, "my.service", &env, 1, NULL, false, room, sizeof room, &needed) != CADENCE_OK) return 2;
    count(&handle, "closed", 1, NULL);
    if (cadence_open(&handle, 64, 2, CADENCE_REFUSE) != CADENCE_OK) return 3;
    counters(&handle);
    other_kinds(&handle);
    refusals(&handle);
    long_line(&handle);

    cadence_counts_of counts;
    cadence_counts(&handle, &counts);
    printf("held %zu waiting %zu made %ju sent %ju dropped %ju\n", counts.held, counts.waiting, (uintmax_t)counts.made,
           (uintmax_t)counts.sent, (uintmax_t)counts.dropped);
    cadence_free(&handle);
    cadence_free(&handle);

    char got[512];
    ssize_t n;
    while ((n = recv(server, got, sizeof got, MSG_DONTWAIT)) >= 0) printf("datagram of %zd bytes\n%.*s\n", n, (int)n, got);
    return 0;
}
