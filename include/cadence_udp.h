/* SPDX-License-Identifier: Apache-2.0 OR MIT */
/* A client of cadence.h with its socket: it sends packets by UDP, or to a Unix datagram socket. It is in the library, as
 * plain C, which is tested and not proved.
 *
 *     cadence_udp out = CADENCE_UDP_CLOSED;
 *     const char *fault = cadence_udp_connect(&out, "127.0.0.1", 8125, 1432, 1000);
 *     cadence_count(&out.client, &settings, "visits", 1, NULL);
 *     cadence_udp_send(&out);
 *     cadence_udp_close(&out);
 *
 * The socket never blocks. A packet that it refuses for now still waits, and if too many wait, the oldest is dropped. So
 * a client outlives its agent: it sends to whichever socket is at the path, and to the address that the host has.
 *
 * The name of a host is looked up again after a minute, and after a refusal, but then at most once in a second. If a
 * lookup fails, the client keeps the address. It looks up in cadence_udp_send and cadence_udp_flush, when a packet
 * waits. That call then takes as long as the system's lookup: microseconds for a name in /etc/hosts, usually some
 * milliseconds for one of a name server, and ten seconds or more if no name server answers, unless resolv.conf
 * says otherwise. After it nothing is looked up for nine times as long as it took. A program that must not wait for that
 * gives an address, or sends from a thread of its own. An address and a path are never looked up. Of a name with
 * addresses of both families the first one of IPv4 is taken.
 *
 * What cadence.h says of handles is true of a cadence_udp: only one call at a time uses it. The child of a fork sets its
 * copy to CADENCE_UDP_CLOSED before it connects, because a close sends what is held. */
#ifndef CADENCE_UDP_H
#define CADENCE_UDP_H

#include <cadence.h>

#ifdef __cplusplus
extern "C" {
#endif

/* A client and its socket, or none. Initialize it with CADENCE_UDP_CLOSED, which is zeros. Calls of cadence.h keep lines
 * in `client`. The host may read `settings`, which are those of cadence_udp_connect_environment, and the two counts, and
 * leaves the other fields alone. */
typedef struct cadence_udp {
    cadence_handle client;
    cadence_settings settings;
    struct cadence_udp_socket *socket; /* null if nothing is open */
    uint64_t period, since; /* in nanoseconds of the monotonic clock */
    uint64_t refused; /* how many times a packet could not be sent for now */
    uint64_t too_long; /* how many packets were dropped because they are too long for the socket */
    cadence_settings telemetry; /* of cadence_udp_telemetry, with the counts that were told, and when */
    uint64_t telemetry_every, told_at, told[3];
    char fault[256];
} cadence_udp;

#define CADENCE_UDP_CLOSED                                                                                             \
    { CADENCE_CLOSED, CADENCE_NO_SETTINGS, CADENCE_NULL, 0, 0, 0, 0, CADENCE_NO_SETTINGS, 0, 0, { 0, 0, 0 }, { 0 } }

/* Each of these makes a client with packets of at most `capacity` bytes. Up to 64 packets wait. The first sends to a
 * host, which is a name or an address, and a port. The second sends to the path of a Unix datagram socket, which needs
 * not be there yet. Each returns null, or words that say what is wrong, which stay until the next call; then nothing is
 * open, and the program may call again. What is open already is closed first. */
const char *cadence_udp_connect(cadence_udp *to, const char *host, uint16_t port, size_t capacity,
                                uint32_t period_millis);
const char *cadence_udp_connect_path(cadence_udp *to, const char *path, size_t capacity, uint32_t period_millis);

/* The same, but the client sends where the variables of the environment say, and `settings` have the prefix, which gets
 * a dot at its end if it has none, the tags and the cardinality of the variables, and the container and the external data
 * of the process if a variable says so. If `prefix` is null, it is that of the variables. Their texts stay until the
 * client is closed. If `capacity` is 0, it is what cadence_destination says. If the variables say that nothing is sent,
 * the client drops each packet as if it were sent. If STATSD_IPV6 says yes, a host is looked up for addresses of IPv6
 * alone. */
const char *cadence_udp_connect_environment(cadence_udp *to, const char *prefix, size_t capacity,
                                            uint32_t period_millis);

/* Sends the packets that wait, and the held text too if it may be older than the period. Call it after each call that
 * keeps a line, and at least once a period: then no line is held for longer than two periods. With a period of 0 it
 * sends everything. Returns how many packets still wait. */
size_t cadence_udp_send(cadence_udp *to);

/* Sends the held text at once, and the packets that wait. Returns how many packets still wait. */
size_t cadence_udp_flush(cadence_udp *to);

/* Lets an open client send its own counts from now on: a flush, also one of cadence_udp_send, first keeps a counter for
 * each of packets_sent, packets_dropped and packets_refused that has grown since the last report, after the prefix of these
 * settings and with their tags and container. There is at most one report in `every_millis` milliseconds, and none if that
 * is 0. The packet of a report counts in the next one. If no client is open, nothing happens. The texts of the settings
 * have to stay until the client is closed. */
void cadence_udp_telemetry(cadence_udp *to, const cadence_settings *settings, uint32_t every_millis);

/* Sends what is left, closes the socket and frees the client. What the socket refuses is lost. */
void cadence_udp_close(cadence_udp *to);

#ifdef __cplusplus
}
#endif

#endif
