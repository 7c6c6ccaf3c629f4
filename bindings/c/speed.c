/* SPDX-License-Identifier: Apache-2.0 OR MIT */
/* speed count|tags CALLS [THREADS [known|key]]: makes CALLS calls in each thread and prints how many nanoseconds a call
 * takes. With `known` the texts are not tested for UTF-8. With `key` the calls are added up by a key. Each thread has a
 * handle and a socket of its own. Packets of 1432 bytes are sent to the loopback address as soon as two wait. */
#include "cadence.h"
#include <arpa/inet.h>
#include <pthread.h>
#include <stdio.h>
#include <stdlib.h>
#include <string.h>
#include <sys/socket.h>
#include <time.h>
#include <unistd.h>

#define TEXT(s) (const uint8_t *)(s), sizeof(s) - 1
#define MOST_THREADS 64

static struct sockaddr_in to;
static long calls;
static bool by_key;
static cadence_options options = CADENCE_NO_OPTIONS;

static void send_waiting(cadence_handle *handle, int fd) {
    uint8_t packet[1432];
    size_t length;
    while (cadence_next(handle, packet, sizeof packet, &length) == CADENCE_OK) {
        if (send(fd, packet, length, 0) < 0) exit(3);
        cadence_sent(handle);
    }
}

static void *work(void *unused) {
    cadence_handle handle = CADENCE_CLOSED;
    const int fd = socket(AF_INET, SOCK_DGRAM, 0);
    if (connect(fd, (struct sockaddr *)&to, sizeof to)) exit(2);
    const cadence_settings settings = cadence_settings_of("some.prefix.");
    cadence_open(&handle, 1432, 2, CADENCE_REFUSE);
    cadence_sums sums = CADENCE_CLOSED;
    size_t key = 0;
    if (by_key && cadence_open_sums(&sums, 16, 512, false)) exit(4);
    if (by_key && cadence_key_of(&sums, &settings, CADENCE_COUNTER, "some.counter", &options, &key)) exit(4);
    for (long i = 0; i < calls; i++) {
        const int64_t value = i % 1000;
        uint32_t status;
        do {
            status = by_key ? cadence_add_number(&sums, &handle, key, value)
                            : cadence_signed(&handle, &settings, CADENCE_COUNTER, TEXT("some.counter"), &value, 1, &options);
            if (status == CADENCE_FULL) send_waiting(&handle, fd);
        } while (status == CADENCE_FULL);
    }
    if (by_key) cadence_flush_sums(&sums, &handle);
    cadence_flush(&handle);
    send_waiting(&handle, fd);
    cadence_free_sums(&sums);
    cadence_free(&handle);
    close(fd);
    return unused;
}

int main(int argc, char **argv) {
    static const cadence_tag tags[] = { { TEXT("host"), TEXT("web03.example.com"), true },
                                        { TEXT("region"), TEXT("us-east-2"), true },
                                        { NULL, 0, TEXT("beta"), false } };
    const int threads = argc > 3 ? atoi(argv[3]) : 1;
    const int server = socket(AF_INET, SOCK_DGRAM, 0);
    socklen_t size = sizeof to;
    pthread_t others[MOST_THREADS];
    struct timespec start, end;
    if (argc < 3 || threads < 1 || threads > MOST_THREADS) return 2;
    calls = atol(argv[2]);
    if (!strcmp(argv[1], "tags")) options.tags = tags, options.tags_len = 3;
    by_key = argc > 4 && !strcmp(argv[4], "key");
    options.known = argc > 4 && !by_key;
    to.sin_family = AF_INET;
    to.sin_addr.s_addr = htonl(INADDR_LOOPBACK);
    if (bind(server, (struct sockaddr *)&to, sizeof to) || getsockname(server, (struct sockaddr *)&to, &size)) return 2;
    clock_gettime(CLOCK_MONOTONIC, &start);
    for (int i = 1; i < threads; i++) pthread_create(&others[i], NULL, work, NULL);
    work(NULL);
    for (int i = 1; i < threads; i++) pthread_join(others[i], NULL);
    clock_gettime(CLOCK_MONOTONIC, &end);
    const double nanos = (end.tv_sec - start.tv_sec) * 1e9 + (end.tv_nsec - start.tv_nsec);
    printf("%.1f ns a call\n", nanos / ((double)calls * threads));
    return 0;
}
