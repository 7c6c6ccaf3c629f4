/* SPDX-License-Identifier: Apache-2.0 OR MIT */
/* What cadence_udp.h declares. */
#define _GNU_SOURCE
#include <cadence_udp.h>
#include <errno.h>
#include <netdb.h>
#include <stdio.h>
#include <stdlib.h>
#include <sys/socket.h>
#include <sys/stat.h>
#include <sys/un.h>
#include <time.h>
#include <unistd.h>

enum { PACKETS = 64, FIRST_ROOM = 65536, GROUPS = 16384 };

/* the number of the control groups of the host */
static const uint64_t HOST = 4026531835;

static const uint64_t SECOND = 1000000000;

/* Where a client sends, and what it has in memory. */
struct cadence_udp_socket {
    int fd; /* -1 if there is none yet */
    struct sockaddr_storage address;
    socklen_t address_len;
    bool is_name, is_refused; /* whether a name is looked up, and whether a packet was refused since */
    bool is_nowhere; /* whether nothing is sent */
    bool only_ipv6; /* whether the host is looked up for addresses of IPv6 alone */
    uint64_t looked_up, took; /* when the name was last looked up, and how long that took */
    uint8_t *packet, *texts; /* the packet that is sent, and the texts of the settings */
    size_t room;
    char port[8];
    char host[];
};

static uint64_t now(void) {
    struct timespec time;
    clock_gettime(CLOCK_MONOTONIC, &time);
    return (uint64_t)time.tv_sec * SECOND + (uint64_t)time.tv_nsec;
}

/* Closes everything, and sends nothing. */
static void release(cadence_udp *to) {
    struct cadence_udp_socket *const it = to->socket;
    const cadence_settings none = CADENCE_NO_SETTINGS;
    cadence_free(&to->client);
    to->settings = none;
    to->socket = NULL;
    if (it == NULL) return;
    if (it->fd >= 0) close(it->fd);
    free(it->packet);
    free(it->texts);
    free(it);
}

/* Stores words, closes everything, and returns the words. */
static const char *fault(cadence_udp *to, const char *what, const char *why) {
    snprintf(to->fault, sizeof to->fault, "%s: %s", what, why);
    release(to);
    return to->fault;
}

/* The same for a status of a call that reads the variables. */
static const char *bad_environment(cadence_udp *to, uint32_t status, uint32_t variable) {
    size_t len;
    if (status == CADENCE_VARIABLE
        && cadence_variable_text(variable, (uint8_t *)to->fault, sizeof to->fault - 1, &len) == CADENCE_OK) {
        to->fault[len] = '\0';
        release(to);
        return to->fault;
    }
    return fault(to, "the environment", status == CADENCE_TOO_SMALL ? strerror(ENAMETOOLONG) : cadence_status_text(status));
}

/* Makes a client that doesn't know yet where to send. */
static const char *begin(cadence_udp *to, const char *host, size_t capacity, uint32_t period_millis) {
    cadence_udp_close(to);
    struct cadence_udp_socket *const it = calloc(1, sizeof *it + strlen(host) + 1);
    to->socket = it;
    if (it == NULL) return fault(to, host, strerror(ENOMEM));
    it->fd = -1;
    strcpy(it->host, host);
    it->room = capacity < FIRST_ROOM ? capacity : FIRST_ROOM;
    it->packet = malloc(it->room);
    if (it->packet == NULL && it->room != 0) return fault(to, host, strerror(ENOMEM));
    const uint32_t status = cadence_open(&to->client, capacity, PACKETS, CADENCE_DROP_OLDEST);
    if (status != CADENCE_OK) return fault(to, "cadence_open", cadence_status_text(status));
    to->period = (uint64_t)period_millis * 1000000;
    to->since = now();
    to->refused = to->too_long = to->telemetry_every = 0;
    memset(to->told, 0, sizeof to->told);
    return NULL;
}

/* Sends from now on to this address, from a socket of its family. Returns false, and goes on as before, if the system
 * gives no such socket. */
static bool move_to(struct cadence_udp_socket *it, const struct sockaddr *address, socklen_t len) {
    if (it->fd < 0 || it->address.ss_family != address->sa_family) {
        const int fd = socket(address->sa_family, SOCK_DGRAM | SOCK_CLOEXEC | SOCK_NONBLOCK, 0);
        if (fd < 0) return false;
        if (it->fd >= 0) close(it->fd);
        it->fd = fd;
    }
    memcpy(&it->address, address, len);
    it->address_len = len;
    return true;
}

/* Looks the host up, and sends from now on to its first address of IPv4, or if it has none to its first address. Only
 * addresses of IPv6 are looked up if the client wants no others. Returns 0, or the error of getaddrinfo. */
static int look_up(struct cadence_udp_socket *it, int flags) {
    const int family = it->only_ipv6 ? AF_INET6 : AF_UNSPEC;
    const struct addrinfo wanted = { .ai_family = family, .ai_socktype = SOCK_DGRAM, .ai_flags = flags };
    struct addrinfo *found = NULL, *at;
    const uint64_t start = now();
    int error = getaddrinfo(it->host, it->port, &wanted, &found);
    it->looked_up = now();
    it->took = it->looked_up - start;
    it->is_refused = false;
    if (error != 0) return error;
    for (at = found; at != NULL && at->ai_family != AF_INET;) at = at->ai_next;
    if (at == NULL) at = found;
    if (!move_to(it, at->ai_addr, at->ai_addrlen)) error = EAI_SYSTEM;
    const int why = errno;
    freeaddrinfo(found);
    errno = why;
    return error;
}

/* Looks the host up again if it is time, as cadence_udp.h says. */
static void follow_host(struct cadence_udp_socket *it) {
    const uint64_t shortest = it->is_refused ? SECOND : 60 * SECOND;
    const uint64_t pause = 9 * it->took > shortest ? 9 * it->took : shortest;
    if (it->is_name && now() - it->looked_up >= pause) look_up(it, 0);
}

/* Makes a client that sends to a host, which is looked up for addresses of IPv6 alone if that is wanted. */
static const char *connect_host(cadence_udp *to, const char *host, uint16_t port, bool only_ipv6, size_t capacity,
                                uint32_t period_millis) {
    const char *words = begin(to, host, capacity, period_millis);
    if (words != NULL) return words;
    if (port == 0) return fault(to, host, "the port is 0");
    to->socket->only_ipv6 = only_ipv6;
    snprintf(to->socket->port, sizeof to->socket->port, "%u", port);
    int error = look_up(to->socket, AI_NUMERICHOST);
    to->socket->is_name = error == EAI_NONAME;
    if (to->socket->is_name) error = look_up(to->socket, 0);
    return error == 0 ? NULL : fault(to, host, error == EAI_SYSTEM ? strerror(errno) : gai_strerror(error));
}

const char *cadence_udp_connect(cadence_udp *to, const char *host, uint16_t port, size_t capacity, uint32_t period_millis) {
    return connect_host(to, host, port, false, capacity, period_millis);
}

const char *cadence_udp_connect_path(cadence_udp *to, const char *path, size_t capacity, uint32_t period_millis) {
    struct sockaddr_un address = { .sun_family = AF_UNIX };
    const char *words = begin(to, path, capacity, period_millis);
    if (words != NULL) return words;
    if (path[0] == '\0' || strlen(path) >= sizeof address.sun_path)
        return fault(to, path, strerror(path[0] == '\0' ? ENOENT : ENAMETOOLONG));
    strcpy(address.sun_path, path);
    return move_to(to->socket, (const struct sockaddr *)&address, sizeof address) ? NULL : fault(to, path, strerror(errno));
}

/* Makes a client that sends nothing. */
static const char *connect_nowhere(cadence_udp *to, size_t capacity, uint32_t period_millis) {
    const char *words = begin(to, "", capacity, period_millis);
    if (words == NULL) to->socket->is_nowhere = true;
    return words;
}

/* What the system says of the control groups of the process. */
struct groups {
    size_t len;
    uint64_t inode; /* of the directory of version 2, or 0 if the process is in the groups of the host */
    char text[GROUPS + 1], path[GROUPS];
};

/* Reads what the system says of the control groups of the process. What can't be read is empty, or 0. */
static void read_groups(struct groups *to) {
    FILE *const file = fopen("/proc/self/cgroup", "re");
    struct stat found;
    to->len = file != NULL ? fread(to->text, 1, GROUPS, file) : 0;
    if (file != NULL) fclose(file);
    if (stat("/proc/self/ns/cgroup", &found) == 0 && found.st_ino == HOST) return;
    const char *line = to->text;
    while (line != NULL && strncmp(line, "0::", 3) != 0) line = (line = strchr(line, '\n')) != NULL ? line + 1 : NULL;
    if (line == NULL) return;
    snprintf(to->path, sizeof to->path, "/sys/fs/cgroup%.*s", (int)strcspn(line + 3, "\n"), line + 3);
    if (stat(to->path, &found) == 0) to->inode = found.st_ino;
}

/* Sets how long the texts are that the variables say, and the cardinality, and returns CADENCE_OK. */
static uint32_t measure(cadence_settings *made, const cadence_variables *variables, const struct groups *groups,
                        size_t *prefix_len, uint32_t *variable) {
    const uint8_t *const text = CADENCE_BYTES(groups->text);
    uint32_t status = cadence_environment_prefix(variables, NULL, 0, prefix_len, variable);
    if (status != CADENCE_OK && status != CADENCE_TOO_SMALL) return status;
    status = cadence_environment_tags(variables, NULL, 0, &made->tags_len, variable);
    if (status != CADENCE_OK && status != CADENCE_TOO_SMALL) return status;
    status = cadence_environment_container(variables, text, groups->len, groups->inode, NULL, 0, &made->container_len, variable);
    if (status != CADENCE_OK && status != CADENCE_TOO_SMALL) return status;
    status = cadence_environment_external(variables, NULL, 0, &made->external_len, variable);
    if (status != CADENCE_OK && status != CADENCE_TOO_SMALL) return status;
    return cadence_environment_cardinality(variables, &made->cardinality, variable);
}

/* Makes the settings of a prefix, which is that of the variables if it is null, and of the tags, the container, the external
 * data and the cardinality that the variables say. */
static uint32_t make_settings(cadence_udp *to, const char *prefix, const cadence_variables *variables,
                              const struct groups *groups, uint32_t *variable) {
    cadence_settings made = CADENCE_NO_SETTINGS;
    size_t len = 0;
    uint32_t status = measure(&made, variables, groups, &len, variable);
    if (status != CADENCE_OK) return status;
    const uint8_t *const given = prefix != NULL ? CADENCE_BYTES(prefix) : variables->prefix;
    const size_t room = (prefix != NULL ? strlen(prefix) : len) + 1;
    uint8_t *const texts = to->socket->texts = malloc(room + made.tags_len + made.container_len + made.external_len);
    if (texts == NULL) return CADENCE_NO_MEMORY;
    uint8_t *const tags = texts + room, *const container = tags + made.tags_len, *const external = container + made.container_len;
    made.prefix = texts;
    made.tags = tags;
    made.container = container;
    made.contained = made.container_len != 0;
    made.external = external;
    status = cadence_prefix_text(given, room - 1, false, false, texts, room, &made.prefix_len);
    if (status == CADENCE_OK)
        status = cadence_environment_tags(variables, tags, made.tags_len, &made.tags_len, variable);
    if (status == CADENCE_OK)
        status = cadence_environment_container(variables, CADENCE_BYTES(groups->text), groups->len, groups->inode, container,
                                               made.container_len, &made.container_len, variable);
    if (status == CADENCE_OK)
        status = cadence_environment_external(variables, external, made.external_len, &made.external_len, variable);
    if (status == CADENCE_OK) to->settings = made;
    return status;
}

/* The same, after it has read the control groups if a variable asks for the container of the process. */
static uint32_t find_settings(cadence_udp *to, const char *prefix, const cadence_variables *variables, uint32_t *variable) {
    struct groups *const groups = calloc(1, sizeof *groups);
    if (groups == NULL) return CADENCE_NO_MEMORY;
    if (variables->origin_len != 0) read_groups(groups);
    const uint32_t status = make_settings(to, prefix, variables, groups, variable);
    free(groups);
    return status;
}

const char *cadence_udp_connect_environment(cadence_udp *to, const char *prefix, size_t capacity, uint32_t period_millis) {
    const cadence_variables variables = cadence_variables_of(getenv);
    char place[1024];
    size_t len, usual;
    uint16_t port;
    bool only_ipv6 = false;
    uint32_t variable = 0;
    uint8_t *const out = (uint8_t *)place;
    cadence_udp_close(to);
    uint32_t status = cadence_destination(&variables, out, sizeof place - 1, &len, &port, &usual, &only_ipv6, &variable);
    if (status != CADENCE_OK) return bad_environment(to, status, variable);
    place[len] = '\0';
    if (capacity == 0) capacity = usual;
    const char *words = port != 0  ? connect_host(to, place, port, only_ipv6, capacity, period_millis)
                        : len != 0 ? cadence_udp_connect_path(to, place, capacity, period_millis)
                                   : connect_nowhere(to, capacity, period_millis);
    if (words != NULL) return words;
    status = find_settings(to, prefix, &variables, &variable);
    return status == CADENCE_OK ? NULL : bad_environment(to, status, variable);
}

/* Copies the oldest packet that waits into the memory of the client, which grows for a longer one. */
static uint32_t next_packet(cadence_udp *to, size_t *len) {
    struct cadence_udp_socket *const it = to->socket;
    const uint32_t status = cadence_next(&to->client, it->packet, it->room, len);
    if (status != CADENCE_TOO_SMALL) return status;
    uint8_t *const packet = realloc(it->packet, *len);
    if (packet == NULL) return CADENCE_NO_MEMORY;
    it->packet = packet;
    it->room = *len;
    return cadence_next(&to->client, packet, it->room, len);
}

/* Keeps a counter of a count that has grown since it was last kept. If there is no room for it, the next report has it. */
static void keep_growth(cadence_udp *to, const char *key, uint64_t count, uint64_t *kept) {
    if (count != *kept
        && cadence_natural(&to->client, &to->telemetry, CADENCE_COUNTER, key, count - *kept, NULL) == CADENCE_OK)
        *kept = count;
}

/* Keeps the counters of the client's own counts, if a report is due. */
static void keep_counts(cadence_udp *to) {
    cadence_counts_of counts = { 0, 0, 0, 0, 0 };
    const uint64_t time = now();
    if (to->telemetry_every == 0 || time - to->told_at < to->telemetry_every
        || cadence_counts(&to->client, &counts) != CADENCE_OK)
        return;
    to->told_at = time;
    keep_growth(to, "packets_sent", counts.sent - to->too_long, &to->told[0]);
    keep_growth(to, "packets_dropped", counts.dropped + to->too_long, &to->told[1]);
    keep_growth(to, "packets_refused", to->refused, &to->told[2]);
}

void cadence_udp_telemetry(cadence_udp *to, const cadence_settings *settings, uint32_t every_millis) {
    to->telemetry = *settings;
    to->telemetry_every = (uint64_t)every_millis * 1000000;
    to->told_at = now();
}

/* Sends the packet of this length, and returns what sendto returns. */
static ssize_t send_packet(const struct cadence_udp_socket *it, size_t len) {
    return sendto(it->fd, it->packet, len, MSG_NOSIGNAL, (const struct sockaddr *)&it->address, it->address_len);
}

/* Sends the packets that wait, and returns how many still wait. */
static size_t send_waiting(cadence_udp *to) {
    struct cadence_udp_socket *const it = to->socket;
    cadence_counts_of counts = { 0, 0, 0, 0, 0 };
    size_t len;
    uint32_t status = CADENCE_NO_CLIENT;
    while (it != NULL && (status = next_packet(to, &len)) == CADENCE_OK) {
        follow_host(it);
        const ssize_t sent = it->is_nowhere ? 0 : send_packet(it, len);
        if (sent < 0 && errno != EMSGSIZE) {
            it->is_refused = true;
            break;
        }
        to->too_long += sent < 0;
        cadence_sent(&to->client);
    }
    to->refused += status == CADENCE_OK || status == CADENCE_NO_MEMORY;
    cadence_counts(&to->client, &counts);
    return counts.waiting;
}

size_t cadence_udp_send(cadence_udp *to) {
    cadence_counts_of counts = { 0, 0, 0, 0, 0 };
    const uint64_t time = now();
    cadence_counts(&to->client, &counts);
    if (counts.held == 0) to->since = time;
    else if (time - to->since >= to->period) return cadence_udp_flush(to);
    return send_waiting(to);
}

size_t cadence_udp_flush(cadence_udp *to) {
    to->since = now();
    keep_counts(to);
    cadence_flush(&to->client);
    return send_waiting(to);
}

void cadence_udp_close(cadence_udp *to) {
    if (to->socket == NULL) return;
    to->socket->is_name = false; /* nothing is looked up any more */
    cadence_udp_flush(to);
    release(to);
}
