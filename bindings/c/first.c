/* SPDX-License-Identifier: Apache-2.0 OR MIT */
/* gcc first.c $(pkg-config --cflags --libs cadence_c) */
#include <arpa/inet.h>
#include <cadence.h>
#include <errno.h>
#include <stdio.h>
#include <sys/socket.h>

/* Sends the packets that wait. A packet that is too long for a datagram is dropped. One that the socket refuses for
 * another reason still waits. */
static void send_waiting(cadence_handle *client, int fd) {
    static uint8_t packet[65507];
    size_t length;
    uint32_t status;
    while ((status = cadence_next(client, packet, sizeof packet, &length)) == CADENCE_OK
           || status == CADENCE_TOO_SMALL) {
        if (status == CADENCE_OK && send(fd, packet, length, 0) < 0 && errno != EMSGSIZE) return;
        cadence_sent(client);
    }
}

int main(int argc, char **argv) {
    const struct in_addr here = { htonl(INADDR_LOOPBACK) };
    const struct sockaddr_in to = { .sin_family = AF_INET, .sin_port = htons(8125), .sin_addr = here };
    const int fd = socket(AF_INET, SOCK_DGRAM, 0);
    if (connect(fd, (const struct sockaddr *)&to, sizeof to)) return 1;

    const cadence_settings settings = cadence_settings_of("my.service.");
    cadence_handle client = CADENCE_CLOSED;
    uint32_t status = cadence_open(&client, 512, 8, CADENCE_DROP_OLDEST);
    for (int i = 1; i < argc && status == CADENCE_OK; i++) status = cadence_count(&client, &settings, argv[i], 1, NULL);
    if (status == CADENCE_OK) status = cadence_count(&client, &settings, "visits", 1, NULL);
    if (status == CADENCE_OK) status = cadence_flush(&client);
    if (status != CADENCE_OK) fprintf(stderr, "%s\n", cadence_status_text(status));
    send_waiting(&client, fd);
    cadence_free(&client);
    return 0;
}
