/* SPDX-License-Identifier: Apache-2.0 OR MIT */
/* A resolver and a clock for tests: they take the place of getaddrinfo, freeaddrinfo and clock_gettime of the C library
 * in the program that includes this file. One name has the addresses that the test says, and no other has any. */
#ifndef NAMES_H
#define NAMES_H

#include <arpa/inet.h>
#include <netdb.h>
#include <stdbool.h>
#include <stdlib.h>
#include <string.h>
#include <sys/socket.h>
#include <time.h>

/* The addresses of the name `agent.test`, with spaces between them; none if its lookup fails. */
static const char *addresses = "";
static int lookups; /* how many names were looked up */
static int64_t later; /* by how many nanoseconds the clock was moved on; by itself it stands still */
static int64_t lookup_takes; /* by how many nanoseconds a lookup moves the clock on */

/* Returns the entry of an address, or null if the text is none. */
static struct addrinfo *entry_of(const char *text, const char *port) {
    struct addrinfo *const made = (struct addrinfo *)calloc(1, sizeof *made + sizeof(struct sockaddr_in6));
    struct sockaddr_in *const four = (struct sockaddr_in *)(made + 1);
    struct sockaddr_in6 *const six = (struct sockaddr_in6 *)(made + 1);
    made->ai_addr = (struct sockaddr *)(made + 1);
    if (inet_pton(AF_INET, text, &four->sin_addr) == 1) made->ai_family = AF_INET, made->ai_addrlen = sizeof *four;
    else if (inet_pton(AF_INET6, text, &six->sin6_addr) == 1) made->ai_family = AF_INET6, made->ai_addrlen = sizeof *six;
    else return free(made), (struct addrinfo *)NULL;
    made->ai_addr->sa_family = (sa_family_t)made->ai_family;
    four->sin_port = htons((uint16_t)atoi(port)); /* at the same place in both families */
    return made;
}

/* Returns whether an entry has the family that is wanted, if one is. */
static bool is_wanted(const struct addrinfo *entry, const struct addrinfo *wanted) {
    return wanted->ai_family == AF_UNSPEC || wanted->ai_family == entry->ai_family;
}

void freeaddrinfo(struct addrinfo *found) {
    while (found != NULL) {
        struct addrinfo *const next = found->ai_next;
        free(found);
        found = next;
    }
}

int getaddrinfo(const char *name, const char *port, const struct addrinfo *wanted, struct addrinfo **found) {
    char list[256];
    *found = entry_of(name, port);
    if (*found != NULL && is_wanted(*found, wanted)) return 0;
    if (*found != NULL) return freeaddrinfo(*found), EAI_ADDRFAMILY;
    if (wanted->ai_flags & AI_NUMERICHOST) return EAI_NONAME;
    lookups++;
    later += lookup_takes;
    if (strcmp(name, "agent.test") != 0 || *addresses == '\0') return EAI_NONAME;
    strcpy(list, addresses);
    struct addrinfo **next = found;
    for (char *text = strtok(list, " "); text != NULL; text = strtok(NULL, " ")) {
        *next = entry_of(text, port);
        if (*next != NULL && is_wanted(*next, wanted)) next = &(*next)->ai_next;
        else freeaddrinfo(*next), *next = NULL;
    }
    return *found != NULL ? 0 : EAI_NONAME;
}

int clock_gettime(clockid_t clock, struct timespec *time) {
    (void)clock;
    time->tv_sec = 1000000 + later / 1000000000;
    time->tv_nsec = later % 1000000000;
    return 0;
}

#endif
