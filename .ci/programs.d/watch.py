"""The tests of `statsd_watch`."""
import errno, os, re, signal, socket, subprocess, tempfile, time

from other_clients import CLIENTS, OTHERS, UNREADABLE, line_of, printed_of, shown
from running import LONGEST, bound, result_of, status_of
from watch_fuzz import fuzz_cases

# Packets; the rows that are printed for them, and the message.
WATCHED_PACKETS = [b'a:1:2.5|ms|@0.5|#k:v,w|c:id|T7\n', b'b:3|c\nc\n\n', b'":|g']
WATCHED = [b'metric\ta\t1:2.5\tms\t|@0.5|#k:v,w|c:id|T7\n', b'metric\tb\t3\tc\t\nunreadable\tc\n', b'metric\t"\t\tg\t\n']
WATCHED_JSON = [
    b'{"is":"metric","name":"a","values":[1,2.5],"type":"ms","rate":0.5,"tags":["k:v","w"],"container":"id","time":7}\n',
    b'{"is":"metric","name":"b","values":[3],"type":"c"}\n{"is":"unreadable","line":"c"}\n',
    b'{"is":"metric","name":"\\"","values":[],"type":"g"}\n',
]
WATCHED_MESSAGE = b'statsd_watch: packet 2, line 2: wants NAME:VALUE|TYPE: c\n'
VISITS = b'metric\ta\t1\tc\t\n'  # what is printed of the line a:1|c

EVENT = OTHERS[0][0]


def watch_cases(program):
    """Yields runs of statsd_watch: what it prints for packets of which some have lines that can't be read."""
    yield 'the version', result_of([program, '--version'], b''), (0, b'statsd_watch 0.9.0\n', b'')
    status, text, errors = result_of([program, '--help'], b'')
    yield 'help', (status, b'--strict' in text, errors), (0, True, b'')
    yield from foreign_cases(program)
    yield from fuzz_cases(program)
    yield from filter_cases(program)
    yield from top_cases(program)
    yield 'no place', result_of([program, 'nowhere'], b''), (
        2, b'', b'statsd_watch: nowhere: wants HOST:PORT, PORT or unix:PATH, as in 127.0.0.1:8125\n')
    for options, wanted in [([], WATCHED), (['--strict'], WATCHED[:1] + WATCHED[-1:]), (['--json'], WATCHED_JSON)]:
        with tempfile.TemporaryDirectory() as room:
            yield from watch_path(program, f'{room}/s', options, b''.join(wanted))
    with socket.socket(socket.AF_INET, socket.SOCK_DGRAM) as sender:
        sender.bind(('127.0.0.1', 0))
        port = sender.getsockname()[1]
        taken = result_of([program, str(port)], b'')
        yield 'a port that is taken', taken, (1, b'', watch_error(f'cannot listen at 127.0.0.1:{port}', errno.EADDRINUSE))
        with socket.socket(socket.AF_INET, socket.SOCK_DGRAM) as free:
            free.bind(('127.0.0.1', 0))
            place = free.getsockname()
        with subprocess.Popen([program, '--count', '1', '--sender', '%s:%d' % place], stdout=subprocess.PIPE) as run:
            while run.poll() is None:
                sender.sendto(b'a:1|c\n', place)
                time.sleep(0.05)
            yield 'a sender', (run.returncode, run.stdout.read()), (0, b'127.0.0.1:%d\t%s' % (port, VISITS))
    yield from watch_places(program)
    yield from watch_again(program)
    yield from watch_long(program)
    yield from watch_flood(program)
    closed = result_of([program, '--count', '1', '%s:%d' % place], b'', first=lambda: os.close(1))
    yield 'a closed output', closed, (1, b'', watch_error('cannot print', errno.EBADF))
    before = time.monotonic()
    yield 'a time', result_of([program, '--for', '1', '127.0.0.1:%d' % place[1]], b''), (0, b'', b'')
    yield 'its length', 1 <= time.monotonic() - before < LONGEST, True


def watch_error(doing, number):
    return f'statsd_watch: {doing}: {os.strerror(number)} (os error {number})\n'.encode()


def watched(program, options, packets):
    """Returns what a run with these options prints for packets to a path, and its status."""
    with tempfile.TemporaryDirectory() as room:
        run = started_at(program, f'{room}/s', '--count', str(len(packets)), *options)
        with socket.socket(socket.AF_UNIX, socket.SOCK_DGRAM) as sender:
            for packet in packets:
                sender.sendto(packet, f'{room}/s')
        return (*run.communicate(timeout=LONGEST), run.returncode)


def foreign_cases(program):
    """Yields runs that get lines of other clients: a server can read each metric, event and service check, and no other line."""
    for client, rows in CLIENTS.items():
        wanted = b''.join(map(printed_of, rows))
        yield f'lines of {client}', watched(program, [], list(map(line_of, rows))), (wanted, b'', 0)
        yield f'a packet of {client}', watched(program, [], [b'\r\n'.join(map(line_of, rows))]), (wanted, b'', 0)
    lines, wanted = [line for line, _ in OTHERS], b''.join(b'%s\t%s\n' % (word, line) for line, word in OTHERS)
    yield 'events and checks', watched(program, [], [*lines, b'', b'\n']), (wanted, b'', 0)
    for line in [*UNREADABLE, b'\r']:
        message = b'statsd_watch: packet 1, line 1: wants NAME:VALUE|TYPE: %s\n' % shown(line)
        yield line, watched(program, [], [line + b'\r']), (b'unreadable\t%s\n' % shown(line), message, 2)
    yield 'CR LF', watched(program, [], [b'a:1|c\r\na:1|c\r\n\r\n', b'a:1|c\r']), (VISITS * 3, b'', 0)
    output = b'{"is":"metric","name":"a","values":[".5",1e-05,"x"],"type":"ms","tags":["k:v:w"],"rate":0.5,"fields":["e:x","#z"],"remark":"byte 3'
    got = watched(program, ['--json'], [b'a:.5:1e-05:x|ms|#k:v:w|@0.5|e:x|#z'])
    yield f'as JSON: {got}', (got[0].startswith(output), *got[1:]), (True, b'', 0)
    yield 'an event as JSON', watched(program, ['--json'], [EVENT]), (b'{"is":"event","line":"%s"}\n' % EVENT, b'', 0)


FILTERED = [b'app.a:1|c|#env:prod,web\napp.b:2|ms|@0.5|#env:dev\n', b'other:3|c|c:x|#web\n_sc|app|0|#web\nbad\n']
FILTERS = {'app.a': '1', 'app.*': '12', '*': '123', 'app': '', 'app.a*': '1'}, {'c': '13', 'ms': '2', 'm*': '2', 'm': ''}, {
    'web': '13', 'env:*': '12', 'env:prod': '1', 'env': '', 'c:x': ''}


def filter_cases(program):
    """Yields runs with filters, and which of the metrics they print, by their values."""
    message = b'statsd_watch: packet 2, line 3: wants NAME:VALUE|TYPE: bad\n'
    for option, wanted in zip(['--only', '--kind', '--tag'], FILTERS):
        for pattern, values in wanted.items():
            output, errors, status = watched(program, [option, pattern], FILTERED)
            got = b''.join(row.split(b'\t')[2] for row in output.splitlines()).decode()
            yield f'{option} {pattern}', (got, errors, status), (values, message, 2)
    got = watched(program, ['--only', 'app.*', '--kind', 'c', '--tag', 'web'], FILTERED)
    yield 'three filters', got, (b'metric\tapp.a\t1\tc\t|#env:prod,web\n', message, 2)


# Packets whose lines are counted; the table for some options; and options that can't be used.
COUNTED = [b'b:1|c\na:1|c\r\nb:2|g\n', b'b:3|g\na:x|s\n%s\nc:1|c\n' % EVENT]
COUNTS = [
    (['--top', '0'], b'3\tmetric\tb\n2\tmetric\ta\n1\tevent\n1\tmetric\tc\n\n'),
    (['--top', '60', '--names', '4'], b'3\tmetric\tb\n2\tmetric\ta\n1\tevent\n1\tmetric\tc\n\n'),
    (['--top', '0', '--names', '2'], b'3\tmetric\tb\n2\tmetric\ta\n2\tof other names\n\n'),
    (['--top', '0', '--names', '0'], b'7\tof other names\n\n'),
    (['--top', '60', '--only', 'b'], b'3\tmetric\tb\n\n'),
    (['--top', '0', '--kind', 'g'], b'2\tmetric\tb\n\n'),
    (['--top', '0', '--tag', 'a'], b'\n'),
]
UNCOUNTED = [['--top', '0', '--json'], ['--top', '0', '--time'], ['--top', '0', '--sender'], ['--names', '2'], ['--top', 'x']]


def top_cases(program):
    """Yields runs that count lines by name: at the end, and again and again."""
    for options, table in COUNTS:
        yield f'counts, {options}', watched(program, options, COUNTED), (table, b'', 0)
    message = b'statsd_watch: packet 1, line 2: wants NAME:VALUE|TYPE: b\n'
    for options, table in [([], b'1\tmetric\ta\n1\tunreadable\n\n'), (['--strict'], b'\n'), (['--only', 'a'], b'1\tmetric\ta\n\n')]:
        yield f'counts with an unreadable line, {options}', watched(program, ['--top', '0', *options], [b'a:1|c\nb']), (table, message, 2)
    for options in UNCOUNTED:
        output, errors, status = watched(program, options, [])
        yield f'{options}', (output, b'--top' in errors, status), (b'', True, 2)
    with tempfile.TemporaryDirectory() as room:
        run = started_at(program, f'{room}/s', '--for', '3', '--top', '1')
        output, errors = run.communicate(timeout=LONGEST)
        yield 'counts each second', (output.count(b'\n') >= 2, errors, run.returncode), (True, b'', 0)


def watch_path(program, path, options, wanted):
    """Yields what a run with these options prints for the packets, which come to a path."""
    pipe = subprocess.PIPE
    with subprocess.Popen([program, '--count', '3', *options, f'unix:{path}'], stdout=pipe, stderr=pipe) as run:
        while not os.path.exists(path) and run.poll() is None:
            time.sleep(0.01)
        with socket.socket(socket.AF_UNIX, socket.SOCK_DGRAM) as sender:
            for packet in WATCHED_PACKETS:
                sender.sendto(packet, path)
        output, errors = run.communicate(timeout=LONGEST)
        yield f'watched, {options}', (run.returncode, output, errors), (2, wanted, WATCHED_MESSAGE)
        yield f'the file after that, {options}', os.path.exists(path), False


def free_port():
    """Returns a port at which nobody receives."""
    with socket.socket(socket.AF_INET, socket.SOCK_DGRAM) as free:
        free.bind(('127.0.0.1', 0))
        return free.getsockname()[1]


def watch_places(program):
    """Yields runs that receive at places of each form."""
    for form in ('%d', ':%d', '*:%d', 'udp://127.0.0.1:%d'):
        port = free_port()
        with subprocess.Popen([program, '--count', '1', form % port], stdout=subprocess.PIPE) as run:
            with socket.socket(socket.AF_INET, socket.SOCK_DGRAM) as sender:
                while run.poll() is None:
                    sender.sendto(b'a:1|c\n', ('127.0.0.1', port))
                    time.sleep(0.05)
            yield f'the place {form}', (run.returncode, run.stdout.read()), (0, VISITS)


def started_at(program, path, *options):
    """Starts a run that receives at a path, and returns it when it does."""
    run = subprocess.Popen([program, *options, f'unix:{path}'], stdout=subprocess.PIPE, stderr=subprocess.PIPE)
    with socket.socket(socket.AF_UNIX, socket.SOCK_DGRAM) as sender:
        ends = time.monotonic() + LONGEST
        while run.poll() is None and sender.connect_ex(path) and time.monotonic() < ends:
            time.sleep(0.01)
    return run


def watch_again(program):
    """Yields runs at a path that already has a file: of a run that a signal ended, of a socket to which somebody listens, and
    of no socket."""
    with tempfile.TemporaryDirectory() as room:
        path = f'{room}/s'
        with started_at(program, path) as run:
            run.send_signal(signal.SIGINT)
            yield 'a signal', (status_of(run), os.path.exists(path)), (-signal.SIGINT, True)
        with started_at(program, path, '--count', '1') as run:
            with socket.socket(socket.AF_UNIX, socket.SOCK_DGRAM) as sender:
                sender.sendto(b'a:1|c\n', path)
            yield 'the start after it', (*run.communicate(timeout=LONGEST), run.returncode), (VISITS, b'', 0)
        taken = lambda path: (1, b'', watch_error(f'cannot listen at unix:{path}', errno.EADDRINUSE))
        with bound(path):
            yield 'a path that is taken', result_of([program, f'unix:{path}'], b''), taken(path)
        open(f'{room}/file', 'w').close()
        yield 'a file', result_of([program, f'unix:{room}/file'], b''), taken(f'{room}/file')
        yield 'the file after it', os.path.exists(f'{room}/file'), True


SO_SNDBUFFORCE, UNCUT, MOST_OF_PATH = 32, b'visits:1|c|#page:home\n', 1 << 19
UNCUT_ROW = b'metric\tvisits\t1\tc\t|#page:home\n'


def watch_long(program):
    """Yields runs that get a long datagram over a Unix socket, and if the system lets this process send it one that is longer
    than the program receives."""
    with tempfile.TemporaryDirectory() as room, socket.socket(socket.AF_UNIX, socket.SOCK_DGRAM) as sender:
        path, lines = f'{room}/s', 200000 // len(UNCUT)
        run = started_at(program, path, '--count', '1')
        sender.sendto(UNCUT * lines, path)
        yield 'a long datagram', (*run.communicate(timeout=LONGEST), run.returncode), (UNCUT_ROW * lines, b'', 0)
        run = started_at(program, path, '--count', '2')
        try:
            sender.setsockopt(socket.SOL_SOCKET, SO_SNDBUFFORCE, 2 * MOST_OF_PATH)
            sender.sendto(UNCUT * (MOST_OF_PATH // len(UNCUT) + 1), path)
        except OSError:
            run.kill()
            run.communicate()
            return
        sender.sendto(b'a:1|c\n', path)
        message = b'statsd_watch: packet 1: has %d bytes or more: wants fewer\n' % MOST_OF_PATH
        yield 'a datagram that is cut', (*run.communicate(timeout=LONGEST), run.returncode), (VISITS, message, 2)


FLOOD, DROPPED = 1000, re.compile(rb'statsd_watch: the system dropped (\d+) packets: they came faster than they are printed\n')


def watch_flood(program):
    """Yields a run that is stopped for a while, and gets more packets meanwhile than the system keeps: it prints those that
    were kept, and tells how many were dropped. On a busy machine it is run again, for a longer time."""
    for seconds in (5, 20, LONGEST):
        port, pipe = free_port(), subprocess.PIPE
        with subprocess.Popen([program, '--for', str(seconds), str(port)], stdout=pipe, stderr=pipe) as run:
            began = time.monotonic()
            sent = flood(run, port)
            was_late = time.monotonic() - began > seconds / 2
            output, errors = run.communicate(timeout=2 * LONGEST)
        if not was_late or seconds == LONGEST:
            dropped = DROPPED.fullmatch(errors)
            got = run.returncode, output.count(VISITS) + int(dropped[1] if dropped else 0)
            yield f'packets in a flood, {errors}', got, (1, sent)
            return


def flood(run, port):
    """Stops a run that receives at a port, sends packets until the system drops some, lets the run go on, and returns how many
    packets were sent."""
    with socket.socket(socket.AF_INET, socket.SOCK_DGRAM) as sender:
        sender.connect(('127.0.0.1', port))
        os.set_blocking(run.stdout.fileno(), False)
        while not run.stdout.read() and run.poll() is None:
            with_refusal(lambda: sender.send(b'first:1|c\n'))
            time.sleep(0.05)
        os.set_blocking(run.stdout.fileno(), True)
        run.send_signal(signal.SIGSTOP)
        sent = 0
        while not drops_at(port) and sent < 1000 * FLOOD:
            for _ in range(FLOOD):
                with_refusal(lambda: sender.send(b'a:1|c\n'))
            sent += FLOOD
        run.send_signal(signal.SIGCONT)
    return sent


def drops_at(port):
    """Returns how many packets the system has dropped at a port of 127.0.0.1."""
    place = f'0100007F:{port:04X}'
    with open('/proc/net/udp') as table:
        return next((int(line.split()[-1]) for line in table if line.split()[1] == place), 0)


def with_refusal(send):
    """Sends a datagram, which may be refused because nobody receives yet."""
    try:
        send()
    except ConnectionRefusedError:
        pass
