"""The tests of `statsd_send` with the path of a Unix socket, whose server is slow, full, away or replaced."""
import errno, os, re, socket, subprocess, tempfile, threading, time

from running import LONGEST, bound, next_datagram, result_of, status_of
from send_words import ONE, ONE_SENT, OVERRIDDEN, WANTS_LENGTH, error_lines

CLOSINGS = 10


def socket_flags(number):
    """Returns the flags of the one socket that a process has."""
    folder = f'/proc/{number}/fd'
    sockets = [name for name in os.listdir(folder) if os.readlink(f'{folder}/{name}').startswith('socket:')]
    with open(f'/proc/{number}/fdinfo/{sockets[0]}') as file:
        return len(sockets), next(int(line.split()[1], 8) for line in file if line.startswith('flags:'))


def send_to_path(program):
    """Yields the datagrams that a Unix socket receives from statsd_send, and runs to paths that no socket takes a datagram at."""
    with tempfile.TemporaryDirectory() as room:
        path = f'{room}/s'
        command = [program, '--to', f'unix:{path}']
        with bound(path) as server:
            got = result_of([*command, *ONE], b'', environment=OVERRIDDEN)
            yield 'a path', (*got, next_datagram(server)), (0, b'', b'', ONE_SENT)
            agent = {**OVERRIDDEN, 'DD_DOGSTATSD_URL': f'unix://{path}', 'DD_ENV': 'prod'}
            got = result_of([program, 'c', 'a', '1'], b'', environment=agent)
            yield 'the path of the environment', (*got, next_datagram(server)), (0, b'', b'', b'a:1|c|#env:prod\n')
            agent = {**OVERRIDDEN, 'DD_DOGSTATSD_URL': '', 'DD_DOGSTATSD_SOCKET': path}
            got = result_of([program, *ONE], b'', environment=agent)
            yield 'the path of a variable alone', (*got, next_datagram(server)), (0, b'', b'', ONE_SENT)
            for switch in ({'DD_DOGSTATSD_DISABLE': 'true'}, {'STATSD_ENABLED': '0'}):
                got = result_of([program, *ONE], b'', environment={**OVERRIDDEN, **switch})
                yield f'nothing is sent by {switch}', got, (0, b'', b'')
            longest = server.getsockopt(socket.SOL_SOCKET, socket.SO_SNDBUF) - 32
            long = result_of([*command, '--capacity', str(longest + 1)], b'')
            wants = f'--capacity {longest + 1}: wants at most {longest} bytes, the longest datagram to unix:{path}'
            yield 'packets past the socket', long, (2, b'', error_lines(wants.encode()))
            long = result_of(command, b'c %s 1\n' % (b'a' * longest))
            yield 'a line past the socket', long, (2, b'', error_lines(b'line 1: ' + WANTS_LENGTH, b'1 of 1 lines: cannot read'))
            yield from send_until_full(command, server, refused(path, errno.EAGAIN))
            yield from send_while_full(command, path, server)
            yield from send_slowly(command, server)
        yield 'a closed server', result_of([*command, *ONE], b''), (1, b'', refused(path, errno.ECONNREFUSED))
        os.unlink(path)
        yield 'no server', result_of([*command, *ONE], b''), (1, b'', refused(path, errno.ENOENT))
        yield 'no server for added lines', result_of([*command, '--aggregate'], b'c a 1\nc b 2\nc a 3'), (
            1, b'', refused(path, errno.ENOENT, ': packets are dropped') + error_lines(
                b'1 of 1 packets were lost, with 2 lines, the sums of at most 3 lines of the input'))
        yield from send_past_restart(command, path)
        yield from send_past_absence(command, path)
        yield from send_past_closings(command, path)


def refused(path, number, more=''):
    """Returns the message for a path at which a packet is refused."""
    return error_lines(f'cannot send to unix:{path} (--to): {os.strerror(number)} (os error {number}){more}'.encode())


def send_until_full(command, server, wanted):
    """Yields runs whose server reads nothing, and another one after the server has read all."""
    status, output, errors = result_of([*command, '--capacity', '1', '--drop'], b'c a 1\n' * 10000)
    lost = re.search(rb'statsd_send: (\d+) of 10000 packets were lost, with (\d+) lines\n\Z', errors)
    yield 'a server that does not read', (status, output, errors.count(b'\n'), bool(lost)), (1, b'', 2, True)
    if not lost:
        return
    yield 'one metric to it', result_of([*command, *ONE], b''), (1, b'', wanted)
    server.settimeout(0)
    waiting = list(iter(lambda: next_datagram(server), b'no datagram'))
    yield 'what it had room for', (len(waiting) + int(lost[1]), lost[1], set(waiting)), (10000, lost[2], {b'a:1|c'})
    yield 'a server that has read', (*result_of([*command, *ONE], b''), next_datagram(server)), (0, b'', b'', ONE_SENT)


def send_slowly(command, server):
    """Yields a run over many lines, whose server reads more slowly than they come."""
    server.settimeout(LONGEST)
    with subprocess.Popen(command, stdin=subprocess.PIPE) as run:
        text = b'c visits 1 page:home\n' * 100000
        writer = threading.Thread(target=lambda: (run.stdin.write(text), run.stdin.close()))
        writer.start()
        count = 0
        while count < 100000:
            datagram = next_datagram(server)
            if datagram == b'no datagram':
                break
            count += datagram.count(b'\n')
        writer.join(LONGEST)
        yield 'a server that reads slowly', (status_of(run), count), (0, 100000)


def send_while_full(command, path, server):
    """Yields runs whose server reads nothing, with a wait that is bounded; and one whose server reads after two seconds."""
    waiting = error_lines(f'cannot send to unix:{path} (--to): no room for a second: waiting'.encode())
    dropping = refused(path, errno.EAGAIN, ': packets are dropped')
    command, text = [*command, '--capacity', '6'], b'c a 1\n' * 1000
    for millis, told in ((300, b''), (1500, waiting)):
        before = time.monotonic()
        status, output, errors = result_of([*command, '--wait', str(millis)], text)
        longer = time.monotonic() - before >= millis / 1000
        lost = re.search(rb'statsd_send: (\d+) of 1000 packets were lost, with \1 lines\n\Z', errors)
        arrived = drain(server)
        got = status, longer, errors.startswith(told + dropping), arrived + int(lost[1] if lost else 0)
        yield f'a server that does not read for {millis} ms, {arrived} lines arrived', got, (1, True, True, 1000)
    with subprocess.Popen(command, stdin=subprocess.PIPE, stderr=subprocess.PIPE) as run:
        writer = threading.Thread(target=lambda: (run.stdin.write(text), run.stdin.close()))
        writer.start()
        told, arrived = run.stderr.readline(), 0
        while run.poll() is None:
            arrived += drain(server)
        writer.join(LONGEST)
        got = told, run.returncode, run.stderr.read().replace(waiting, b''), arrived + drain(server)
        yield 'a server that reads late', got, (waiting, 0, b'', 1000)


def drain(server):
    """Returns how many lines wait at a server."""
    server.settimeout(0.1)
    return sum(datagram.count(b'\n') for datagram in iter(lambda: next_datagram(server), b'no datagram'))


def send_past_closings(command, path):
    """Yields how many of a million lines arrived or were counted as lost, while the server was closed and opened again."""
    pipe, count, parts, arrived = subprocess.PIPE, 1000000, 4 * CLOSINGS, 0
    with subprocess.Popen(command, stdin=pipe, stderr=pipe) as run:
        def write():
            for _ in range(parts):
                run.stdin.write(b'c a 1\n' * (count // parts))
                time.sleep(0.05)
            run.stdin.close()
        writer = threading.Thread(target=write)
        writer.start()
        for closing in range(CLOSINGS):
            with bound(path) as server:
                server.settimeout(0.1)
                for datagram in (next_datagram(server) for _ in range(500)):
                    arrived += datagram.count(b'\n')
                    if datagram == b'no datagram':
                        break
                os.unlink(path)
                arrived += drain(server)
        with bound(path) as server:
            server.settimeout(0.1)
            while run.poll() is None:
                arrived += drain(server)
            arrived += drain(server)
        os.unlink(path)
        writer.join(LONGEST)
        errors = run.stderr.read()
        lost = re.search(rb'statsd_send: \d+ of \d+ packets were lost, with (\d+) lines\n\Z', errors)
        got = run.returncode, errors.startswith(b'statsd_send: cannot send to unix:'), arrived + int(lost[1] if lost else 0)
        yield f'a server that is closed {CLOSINGS} times, {arrived} lines arrived', got, (1, True, count)


def send_past_absence(command, path):
    """Yields the datagrams of one run, whose server is away while some lines come, and then is there again."""
    with subprocess.Popen([*command, '--flush-every', '0'], stdin=subprocess.PIPE, stderr=subprocess.PIPE, bufsize=0) as run:
        for number in range(3):
            if number == 1:
                run.stdin.write(b'c a 1\n')
                first = run.stderr.readline()
                yield 'the server is away', first, refused(path, errno.ENOENT, ': packets are dropped')
                continue
            with bound(path) as server:
                run.stdin.write(b'c a %d\n' % number)
                yield 'the server is there', next_datagram(server), b'a:%d|c\n' % number
            os.unlink(path)
        run.stdin.close()
        lost = b'1 of 3 packets were lost, with 1 lines'
        wanted = error_lines(b'sending works again: so far ' + lost, lost), 1
        yield 'the end of it', (run.stderr.read(), status_of(run)), wanted


def send_past_restart(command, path):
    """Yields the datagrams of one run, whose server is replaced by another one at the same path."""
    with subprocess.Popen([*command, '--flush-every', '0'], stdin=subprocess.PIPE, bufsize=0) as run:
        for number in range(2):
            with bound(path) as server:
                run.stdin.write(b'c a %d\n' % number)
                yield 'a server, and then another one', next_datagram(server), b'a:%d|c\n' % number
            os.unlink(path)
        (count, flags), asked = socket_flags(run.pid), os.O_CLOEXEC | os.O_NONBLOCK
        yield 'the flags of its socket', (count, flags & asked), (1, os.O_CLOEXEC)
        run.stdin.close()
        yield 'its end', status_of(run), 0
