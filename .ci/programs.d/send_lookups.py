"""The tests of how `statsd_send` looks up the address of a host. A library that is loaded before all others answers the
system calls."""
import contextlib, errno, re, socket, subprocess, tempfile

from running import next_datagram, result_of
from send_words import ONE, error_lines, system_error


def send_nowhere(program):
    """Yields runs whose host has no address, whose socket can't be made, and whose socket gets no port. A library that is
    loaded before all others answers these system calls."""
    fails = '#include <errno.h>\nint %s { errno = %s; return -1; }'
    for case, to, code, wanted in [
        ('a host without addresses', 'nowhere:1',
         'int getaddrinfo(const char *host, const char *port, const void *wants, void **found) { *found = 0; return 0; }',
         error_lines(b'cannot find nowhere:1 (--to): the host has no address')),
        *[(f'no socket, {to}', to, fails % ('socket(int family, int type, int protocol)', 'EMFILE'),
           system_error(f'cannot make a socket for {to} (--to)', errno.EMFILE)) for to in ['127.0.0.1:9', 'unix:/nowhere/s']],
        ('no port', '127.0.0.1:9', fails % ('bind(int socket, const void *address, unsigned length)', 'EADDRINUSE'),
         system_error('cannot make a socket for 127.0.0.1:9 (--to)', errno.EADDRINUSE)),
    ]:
        with tempfile.TemporaryDirectory() as room:
            library = f'{room}/answers.so'
            subprocess.run(['gcc', '-shared', '-fPIC', '-x', 'c', '-', '-o', library], input=code.encode(), check=True)
            run = result_of([program, '--to', to, *ONE], b'', environment={'LD_PRELOAD': library})
            yield case, run, (1, b'', wanted)


# A clock that goes on by STEP milliseconds at each look, and lookups that find the ADDRESSES one after the other.
FOLLOWED = r'''
#include <arpa/inet.h>
#include <netdb.h>
#include <stdlib.h>
#include <time.h>
static const char *addresses[] = {ADDRESSES};
static long now, lookups, last = sizeof addresses / sizeof *addresses - 1;
int clock_gettime(clockid_t clock, struct timespec *time) {
    now += STEP;
    time->tv_sec = now / 1000;
    time->tv_nsec = now % 1000 * 1000000;
    return 0;
}
int getaddrinfo(const char *host, const char *port, const struct addrinfo *wants, struct addrinfo **found) {
    struct found { struct addrinfo info; struct sockaddr_in address; } *one = calloc(1, sizeof(struct found));
    one->address.sin_family = one->info.ai_family = AF_INET;
    one->address.sin_port = htons(port ? atoi(port) : 0);
    inet_pton(AF_INET, addresses[lookups < last ? lookups : last], &one->address.sin_addr);
    lookups++;
    one->info.ai_socktype = SOCK_DGRAM;
    one->info.ai_addrlen = sizeof one->address;
    one->info.ai_addr = (struct sockaddr *)&one->address;
    *found = &one->info;
    return 0;
}
'''


def send_followed(program):
    """Yields what arrives at three addresses, if the name of a host gets them one after the other: it is looked up again each
    minute, and after a refusal, at most once in a second."""
    text = b'c a 0\nc a 1\nc a 2\nc a 3\n'
    lost = (rb'statsd_send: cannot send to host:\d+ \(--to\): .+ \(os error \d+\): packets are dropped\n'
            rb'statsd_send: sending works again: so far 2 of 4 packets were lost, with 2 lines\n'
            rb'statsd_send: 2 of 4 packets were lost, with 2 lines\n')
    for case, step, places, status, errors, wanted in [
        ('each minute', 30000, ['127.0.0.1', '127.0.0.2', '127.0.0.3'], 0, b'', [[b'a:0|c'], [b'a:1|c', b'a:2|c'], [b'a:3|c']]),
        ('after a refusal', 400, ['255.255.255.255', '127.0.0.3'], 1, lost, [[], [], [b'a:2|c', b'a:3|c']]),
    ]:
        with tempfile.TemporaryDirectory() as room, contextlib.ExitStack() as opened:
            servers = [opened.enter_context(socket.socket(socket.AF_INET, socket.SOCK_DGRAM)) for _ in wanted]
            servers[0].bind(('127.0.0.1', 0))
            port = servers[0].getsockname()[1]
            for number, server in enumerate(servers[1:], 2):
                server.bind((f'127.0.0.{number}', port))
            library, addresses = f'{room}/followed.so', ', '.join(f'"{place}"' for place in places)
            code = FOLLOWED.replace('STEP', str(step)).replace('ADDRESSES', addresses)
            subprocess.run(['gcc', '-shared', '-fPIC', '-x', 'c', '-', '-o', library], input=code.encode(), check=True)
            run = result_of([program, '--to', f'host:{port}', '--capacity', '1'], text, environment={'LD_PRELOAD': library})
            for server in servers:
                server.settimeout(0)
            arrived = [list(iter(lambda: next_datagram(server), b'no datagram')) for server in servers]
            yield f'a lookup {case}', (*run[:2], bool(re.fullmatch(errors, run[2])), arrived), (status, b'', True, wanted)
