/* SPDX-License-Identifier: Apache-2.0 OR MIT */
/* What a program in Rattle calls of the system beside the C library: the words of its command line, the variables of its
 * environment, errno, a socket that does not wait, and the addresses of a name. The kit has these functions for x86-64
 * alone; its crate `os` declares them, and says there what each does. With this file and bindings/c/heap.c, which has the
 * heap, the programs are linked for other processors. */
#include <errno.h>
#include <netdb.h>
#include <stdbool.h>
#include <stdint.h>
#include <stdlib.h>
#include <string.h>
#include <sys/ioctl.h>
#include <sys/socket.h>

extern char **environ;

static char **words;
static size_t count;

/* The C library gives the words of the command line to each function that it calls before main. */
__attribute__((constructor)) static void keep(int given, char **at) {
    count = (size_t)given, words = at;
}

/* Copies a text without its last 0 and returns its length, or fills the buffer and returns -2 if it is too short. There may
 * be no text: then this returns -1. */
static intptr_t copy(const char *text, uint8_t *to, size_t room) {
    if (text == NULL) return -1;
    const size_t length = strlen(text), part = length < room ? length : room;
    if (part != 0) memcpy(to, text, part);
    return part < length ? -2 : (intptr_t)length;
}

size_t rattle_arg_count(void) {
    return count;
}

intptr_t rattle_arg(size_t at, uint8_t *to, size_t room) {
    return copy(at < count ? words[at] : NULL, to, room);
}

intptr_t rattle_env(const char *name, uint8_t *to, size_t room) {
    return copy(getenv(name), to, room);
}

intptr_t rattle_env_at(size_t at, uint8_t *to, size_t room) {
    char **entry = environ;
    while (entry != NULL && *entry != NULL && at > 0) entry++, at--;
    return copy(entry != NULL ? *entry : NULL, to, room);
}

int32_t rattle_errno(void) {
    return errno;
}

void rattle_set_errno(int32_t error) {
    errno = error;
}

int32_t rattle_set_nonblocking(int32_t fd, bool on) {
    int value = on;
    return ioctl(fd, FIONBIO, &value);
}

/* An address, in the first `length` bytes. */
typedef struct {
    uint8_t bytes[128];
    uint32_t length;
} address;

/* Writes the first addresses of a name, and returns how many, or the error of getaddrinfo, which is below 0. */
intptr_t rattle_lookup_host(const char *name, address *found, size_t room) {
    const struct addrinfo wanted = { .ai_socktype = SOCK_STREAM };
    struct addrinfo *all = NULL;
    const int error = getaddrinfo(name, NULL, &wanted, &all);
    if (error != 0) return error;
    size_t n = 0;
    for (const struct addrinfo *at = all; at != NULL && n < room; at = at->ai_next) {
        if ((at->ai_family != AF_INET && at->ai_family != AF_INET6) || at->ai_addrlen > sizeof found->bytes) continue;
        memcpy(found[n].bytes, at->ai_addr, at->ai_addrlen);
        found[n++].length = at->ai_addrlen;
    }
    freeaddrinfo(all);
    return (intptr_t)n;
}
