/* gcc loop.c $(pkg-config --cflags --libs cadence_c) */
#include <cadence_udp.h>
#include <poll.h>
#include <stdio.h>
#include <unistd.h>

enum { PERIOD = 1000 }; /* milliseconds */

int main(void) {
    cadence_udp out = CADENCE_UDP_CLOSED;
    const char *fault = cadence_udp_connect_environment(&out, "my.service", 1432, PERIOD);
    if (fault) return fprintf(stderr, "%s\n", fault), 1;
    struct pollfd input = { .fd = STDIN_FILENO, .events = POLLIN };
    for (;;) {
        char bytes[4096];
        if (poll(&input, 1, PERIOD) > 0) {
            const ssize_t count = read(STDIN_FILENO, bytes, sizeof bytes);
            if (count <= 0) break;
            cadence_count(&out.client, &out.settings, "bytes", count, NULL);
        }
        cadence_udp_send(&out); /* after each call, and at least once a period */
    }
    cadence_udp_close(&out);
    return 0;
}
