/* gcc threads.c $(pkg-config --cflags --libs cadence_c) -lpthread */
#include <cadence_udp.h>
#include <pthread.h>
#include <stdio.h>

static pthread_mutex_t lock = PTHREAD_MUTEX_INITIALIZER;
static cadence_udp out = CADENCE_UDP_CLOSED;

static void *work(void *key) {
    pthread_mutex_lock(&lock);
    const uint32_t status = cadence_count(&out.client, &out.settings, key, 1, NULL);
    cadence_udp_send(&out);
    pthread_mutex_unlock(&lock);
    if (status != CADENCE_OK) fprintf(stderr, "%s\n", cadence_status_text(status));
    return NULL;
}

int main(void) {
    const char *fault = cadence_udp_connect_environment(&out, "my.service", 1432, 1000);
    if (fault) return fprintf(stderr, "%s\n", fault), 1;
    pthread_t threads[4];
    for (int i = 0; i < 4; i++) pthread_create(&threads[i], NULL, work, "visits");
    for (int i = 0; i < 4; i++) pthread_join(threads[i], NULL);
    cadence_udp_close(&out);
    return 0;
}
