"""The tests of `statsd_send`."""
import errno, hashlib, math, os, re, resource, signal, socket, subprocess, threading, time

from running import LONGEST, next_datagram, next_datagram_at_once, report_line, result_of, status_of
from reading import FOLDER, FULL
from send_lookups import send_followed, send_nowhere
from send_paths import send_to_path
from send_rows import SEND_CASES
from send_words import ONE, ONE_SENT, OPTIONS, OVERRIDDEN, STRAY, error_lines, system_error
from shell_page import page_cases

SAMPLED = 10000  # lines
PERIOD = 2  # seconds
PERIOD_OF_SUMS = 10  # seconds
FEW = 16 << 20  # bytes of memory, too few for a long command line


def send_streams(program):
    """Yields runs of statsd_send over streams that fail or are closed, and one with too many words for its memory."""
    source, full = os.open(FOLDER, os.O_RDONLY), os.open(FULL, os.O_WRONLY)
    unread, closed = lambda number: (1, b'', system_error('input: cannot read', number)), lambda: os.close(0)
    for words in ['--print'], ['--to', '127.0.0.1:9']:
        yield f'input that fails, {words}', result_of([program, *words], source=source), unread(errno.EISDIR)
        yield f'closed input, {words}', result_of([program, *words], b'', first=closed), unread(errno.EBADF)
    no_space = lambda doing: (1, b'', system_error(doing, errno.ENOSPC))
    yield 'output that fails', result_of([program, '--print', *ONE], b'', output=full), no_space('cannot print')
    yield 'output of added lines that fails', result_of([program, '--print', '--aggregate'], b'c a 1', output=full), no_space('cannot print')
    yield 'help that fails', result_of([program, '--help'], b'', output=full), no_space('cannot print')
    yield 'errors that fail', result_of([program, '--print', 'c'], b'', errors=full), (2, b'', b'')
    few = lambda: resource.setrlimit(resource.RLIMIT_AS, (FEW, FEW))
    many = result_of([program, '--print', *ONE, *['k:v'] * 80000], b'', first=few)
    yield 'words past memory', many, (3, b'', error_lines(b'out of memory'))
    os.close(source)
    os.close(full)


def send_packets(program):
    """Yields the datagrams that a socket receives from statsd_send."""
    with socket.socket(socket.AF_INET, socket.SOCK_DGRAM) as server:
        server.bind(('127.0.0.1', 0))
        server.settimeout(LONGEST)
        port = str(server.getsockname()[1])
        to, url = ['--to', '127.0.0.1:' + port], 'udp://127.0.0.1:' + port
        for case, words, environment in [
            ('to', [*to, *ONE], OVERRIDDEN),
            ('to a URL', ['--to', url, *ONE], OVERRIDDEN),
            ('the URL', ONE, {**OVERRIDDEN, 'DD_DOGSTATSD_URL': url}),
            ("the agent's host and port", ONE, {
                'DD_DOGSTATSD_URL': '', 'DD_AGENT_HOST': '127.0.0.1', 'DD_DOGSTATSD_PORT': port, 'STATSD_PORT': 'http'}),
            ("the agent's port alone", ONE, {'DD_DOGSTATSD_PORT': port, 'STATSD_HOST': '192.0.2.1'}),
            ('the host and the port', ONE, {'DD_AGENT_HOST': '', 'STATSD_HOST': '127.0.0.1', 'STATSD_PORT': port}),
            ('the port alone', ONE, {'STATSD_HOST': '', 'STATSD_PORT': port}),
        ]:
            got = result_of([program, *words], b'', environment=environment)
            yield case, (*got, next_datagram(server)), (0, b'', b'', ONE_SENT)
        with subprocess.Popen([program, *to, '--flush-every', '0'], stdin=subprocess.PIPE, bufsize=0) as run:
            for number in range(3):
                run.stdin.write(b'c a %d\n' % number)
                yield 'a line before more comes', (run.poll(), next_datagram(server)), (None, b'a:%d|c\n' % number)
            run.stdin.write(b'c last 1')
            run.stdin.close()
            yield 'the end', (status_of(run), next_datagram(server)), (0, b'last:1|c\n')
        only_ipv6 = result_of([program, *to, *ONE], b'', environment={'STATSD_IPV6': '1'})
        yield 'to an address of IPv4 by an option', (*only_ipv6, next_datagram(server)), (0, b'', b'', ONE_SENT)
        yield from send_by_ipv6(program)
        yield from send_paced([program, *to], server)
        yield from send_added([program, *to], server)
        yield from send_held([program, *to], server)


def send_by_ipv6(program):
    """Yields a datagram to an address of IPv6, where only addresses of IPv6 are wanted."""
    with socket.socket(socket.AF_INET6, socket.SOCK_DGRAM) as server:
        try:
            server.bind(('::1', 0))
        except OSError:
            return  # this machine has no IPv6
        server.settimeout(LONGEST)
        wanted = {'STATSD_HOST': '::1', 'STATSD_PORT': str(server.getsockname()[1]), 'STATSD_IPV6': 'yes'}
        got = result_of([program, *ONE], b'', environment=wanted)
        yield 'to an address of IPv6', (*got, next_datagram(server)), (0, b'', b'', ONE_SENT)


def send_paced(command, server):
    """Yields the datagrams of lines within the period of --flush-every, of a line after the period, and of an input whose
    writer is killed."""
    with subprocess.Popen([*command, '--flush-every', str(PERIOD * 1000)], stdin=subprocess.PIPE, bufsize=0) as run:
        run.stdin.write(b'c a 0\n')
        yield 'the first line', next_datagram(server), b'a:0|c\n'
        began = time.monotonic()
        run.stdin.write(b'c a 1\n')
        server.settimeout(PERIOD / 4)
        yield 'a line within the period', next_datagram(server), b'no datagram'
        run.stdin.write(b'c a 2\nc a ')
        server.settimeout(LONGEST)
        yield 'lines for which the period is over', next_datagram(server), b'a:1|c\na:2|c\n'
        waited = time.monotonic() - began
        yield f'after {waited:.1f} of {PERIOD} seconds', waited < 2 * PERIOD, True
        time.sleep(PERIOD / 4)  # until it waits again
        before = switches(run.pid)
        time.sleep(2 * PERIOD)
        yield 'no work while no line is held', switches(run.pid), before
        run.stdin.write(b'3\n')
        yield 'a line after the period', next_datagram(server), b'a:3|c\n'
        run.stdin.write(b'c a 4\n')
        run.stdin.close()
        yield 'the end of its input', (status_of(run), next_datagram(server)), (0, b'a:4|c\n')
    killed = ['sh', '-c', 'echo c held 1; kill $$']
    with subprocess.Popen(killed, stdout=subprocess.PIPE) as writer:
        with subprocess.Popen(command, stdin=writer.stdout) as run:
            yield 'a writer that a signal ends', (status_of(run), next_datagram(server)), (0, b'held:1|c\n')


def send_added(command, server):
    """Yields the datagrams of lines that are added up: after the first piece of input, after the period of --flush-every
    while no input comes, and at the end."""
    with subprocess.Popen([*command, '--aggregate', '--flush-every', str(PERIOD * 1000)], stdin=subprocess.PIPE, bufsize=0) as run:
        run.stdin.write(b'c a 1\nc a 2\n')
        yield 'lines that are added up', next_datagram(server), b'a:3|c\n'
        run.stdin.write(b'c a 4\n')
        run.stdin.write(b'c a 5\n')
        yield 'lines that are added up within the period', next_datagram(server), b'a:9|c\n'
        run.stdin.write(b'c a 6\ng a 7\ng a 8\n')
        run.stdin.close()
        yield 'the end of lines that are added up', (status_of(run), next_datagram(server)), (0, b'a:6|c\na:8|g\n')
    with subprocess.Popen([*command, '--aggregate'], stdin=subprocess.PIPE, bufsize=0) as run:
        began = time.monotonic()
        run.stdin.write(b'c a 1\n')
        run.stdin.write(b'c a 2\n')
        yield 'lines that are added up without a period', next_datagram(server), b'a:3|c\n'
        yield 'their period', time.monotonic() - began >= PERIOD_OF_SUMS - 1, True
        run.stdin.close()
        yield 'the end without a period', status_of(run), 0


def switches(number):
    """Returns how often a process has waited for something."""
    with open(f'/proc/{number}/status') as file:
        return next(int(line.split()[1]) for line in file if line.startswith('voluntary_ctxt_switches'))


def most_memory(number):
    """Returns the most memory that a process has used, in kB. (The usage of an ended child counts its parent's memory.)"""
    with open(f'/proc/{number}/status') as file:
        return next(int(line.split()[1]) for line in file if line.startswith('VmHWM'))


def send_much(program):
    """Yields a run over 100 MB of lines, 23 in a packet, which may take 4 MB of memory at most."""
    most, pipe, text, got, wanted = 0, subprocess.PIPE, b'c visits 1 page:home\n' * 50000, hashlib.sha256(), hashlib.sha256()
    (packets, others), packet = divmod(96 * 50000, 23), report_line(ONE_SENT * 23)
    for _ in range(packets):
        wanted.update(packet)
    wanted.update(report_line(ONE_SENT * others))
    with subprocess.Popen([program, '--print'], stdin=pipe, stdout=pipe) as run:
        read = threading.Thread(target=lambda: [got.update(part) for part in iter(lambda: run.stdout.read(1 << 16), b'')])
        read.start()
        for _ in range(96):
            run.stdin.write(text)
        run.stdin.flush()
        most = most_memory(run.pid)
        run.stdin.close()
        read.join(LONGEST)
        whole = got.digest() == wanted.digest()
        yield f'100 MB, in {most} kB', (status_of(run), most <= 4096, whole), (0, True, True)


def text_of_help(program):
    return result_of([program, '--help'], b'')[1]


def send_held(command, server):
    """Yields a run that a signal ends: it loses the lines that are buffered, but none with `--flush-every 0`."""
    for option, wanted in [(['--flush-every', '0'], b'a:1|c\n'), ([], b'no datagram')]:
        for number in (signal.SIGTERM, signal.SIGINT):
            with subprocess.Popen([*command, *option], stdin=subprocess.PIPE, bufsize=0) as run:
                run.stdin.write(b'c a 1\n')
                server.settimeout(LONGEST if option else PERIOD / 4)
                yield f'a line before {number.name}, {option}', next_datagram(server), wanted
                run.send_signal(number)
                yield f'the end by {number.name}', (status_of(run), next_datagram_at_once(server)), (-number, b'no datagram')


def send_cases(program):
    """Yields all runs of statsd_send: a name, what the run gave, and what it has to give."""
    status, text, errors = result_of([program, '--help'], b'')
    yield 'help', (status, [option for option in OPTIONS if option not in text], errors), (0, [], b'')
    for words, part in STRAY:
        status, text, errors = result_of([program, *words], b'')
        yield f'the words {words}', (status, text, part in errors), (2, b'', True)
    yield 'help by a letter', result_of([program, 'c', 'a', '1', '-h'], b''), (0, text_of_help(program), b'')
    for case, words, environment, given, *wanted in SEND_CASES:
        yield case, result_of([program, *words], given, environment=environment), tuple(wanted)
    status, text, errors = result_of([program, '--print', '--sample', '.25'], b'c a 1\n' * SAMPLED)
    count, others = text.count(b'a:1|c|@0.25\\n'), re.sub(rb'packet \d+ (a:1\|c\|@0\.25\\n)+\n', b'', text)
    near = abs(count - SAMPLED / 4) < 6 * math.sqrt(SAMPLED * 3 / 16)
    yield 'a sample', (status, near, others, errors), (0, True, b'', b'')
    for checks in (send_streams, send_packets, send_to_path, send_nowhere, send_followed, send_much, page_cases):
        yield from checks(program)
