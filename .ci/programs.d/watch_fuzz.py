"""Packets at random, and a model of what `statsd_watch` prints of them, as columns and as JSON.

The model follows docs/shell.md, and specs/Cuts.antt of cadence_read for what a line is. It finds the parts of a line by
patterns, and not as the program does. Of a remark it only says which lines have one."""
import collections, itertools, json, random, re, socket, subprocess, tempfile, time

from other_clients import CLIENTS, OTHERS, UNREADABLE, line_of, shown
from reading import NOT_PACKETS, PACKETS, made_line
from running import LONGEST, status_of

SEED, MADE = 20261130, 10000  # packets
LONG, EACH = 60000, 500  # about how many bytes the longest lines have, and of how many packets one has such a line

EVENT, CHECK = re.compile(rb'_e\{[^:,|\n]*,'), re.compile(rb'_sc\|')
METRIC = re.compile(rb'([^:|]*):([^|]*)\|([^|]*)((?:\|.*)?)', re.DOTALL)
TEXT, NUMBER = rb'[^:,|\n]*', rb'(?:0|-?(?:[1-9]\d*(?:\.\d*[1-9])?|0\.\d*[1-9]))'
TAGS = rb'%s(?::%s)?(?:,%s(?::%s)?)*' % (TEXT, TEXT, TEXT, TEXT)
# the lines of metrics that the clients of this library send
OWN = re.compile(rb'%s:((?:%s(?::%s)*)?)\|(?:c|ms|g|m|h|s|d)(?:\|@(%s))?(?:\|#%s)?(?:\|c:%s)?(?:\|T(0|[1-9]\d*))?' % (
    TEXT, NUMBER, NUMBER, NUMBER, TAGS, TEXT))
REMARK = re.compile(rb'byte ([1-9]\d*): statsd_listen wants [ -~]+')
JSON_NUMBER = re.compile(rb'-?(?:0|[1-9]\d*)(?:\.\d+)?(?:[eE][+-]?\d+)?')
MEMBERS = {b'@': 'rate', b'#': 'tags', b'c:': 'container', b'T': 'time'}


def is_utf8(text):
    try:
        text.decode()
        return True
    except UnicodeDecodeError:
        return False


def is_decimal(number):
    """Returns whether a number has at most 30 places, and digits that are an integer of 128 bits."""
    whole, _, places = number.partition(b'.')
    return len(number) <= 42 and len(places) <= 30 and -2 ** 127 <= int(whole + places) < 2 ** 127


def is_own(line):
    """Returns whether the clients of this library send the line."""
    found = OWN.fullmatch(line)
    if not found or not is_utf8(line):
        return False
    values, rate, seconds = found.groups(b'')
    numbers = [number for number in [*values.split(b':'), rate] if number]
    return all(map(is_decimal, numbers)) and len(seconds) <= 20 and int(seconds or 0) < 2 ** 64


def lines_of(packet):
    """Returns the lines of a packet with their numbers, also the empty ones."""
    lines = (packet[:-1] if packet.endswith(b'\n') else packet).split(b'\n')
    return enumerate([line[:-1] if line.endswith(b'\r') else line for line in lines], 1)


def parts_of(line):
    """Returns the word for what a line is, and its parts."""
    if EVENT.match(line):
        return b'event', line
    if CHECK.match(line):
        return b'check', line
    found = METRIC.fullmatch(line)
    return (b'metric', *found.groups()) if found else (b'unreadable', line)


def has_remark(line):
    return parts_of(line)[0] == b'metric' and not is_own(line)


def string_of(text):
    return (text if is_utf8(text) else shown(text)).decode()


def value_of(text):
    """Returns what JSON says of a text: a number of JSON as it is spelled, and otherwise a string."""
    return ('number', text.decode()) if JSON_NUMBER.fullmatch(text) else string_of(text)


def members_of(line):
    """Returns the members of the object that is printed of a line, in their order, but for the remark."""
    word, *parts = parts_of(line)
    if word != b'metric':
        return [('is', word.decode()), ('line', string_of(line))]
    name, values, kind, fields = parts
    members = [('is', 'metric'), ('name', string_of(name)), ('values', [value_of(value) for value in values.split(b':') if values]),
               ('type', string_of(kind))]
    others = []
    for field in fields.split(b'|')[1:]:
        mark = next((mark for mark in MEMBERS if field.startswith(mark)), b'')
        member, text = MEMBERS.get(mark), field[len(mark):]
        if member is None or member in dict(members):
            others.append(string_of(field))
        elif member == 'tags':
            members.append((member, [string_of(tag) for tag in text.split(b',') if text]))
        else:
            members.append((member, string_of(text) if member == 'container' else value_of(text)))
    return members + [('fields', others)] * bool(others)


BYTES = b':|,\n\r#@cTe_{}s.0123456789+-\\"\t\0\x7f\x80\xc3\xff /'
NAMES = [b'', b'a', b'some.counter', b'gr\xc3\xb6\xc3\x9fe', b'a,b=c', b'a b\t', b'\\x', b'_e', b'_e{5', b'_sc', b'\xff', b'\0', b'"', b'c', b'Tx']
MOST = b'%d' % (2 ** 127 - 1)
NUMBERS = [b'', b'1', b'0', b'0.50', b'.5', b'1e-05', b'1E+5', b'+3', b'-0', b'-3', b'-0.5', b'0.5', b'1.', b'08', b'NaN', b'alice', b'1_0', b' 1',
           b'-', b'0x1', b'\xd9\xa3', b'1e', b'1e999', MOST, b'-' + MOST[:-1] + b'8', MOST[:-1] + b'8', b'0.%030d' % 1, b'0.%031d' % 1]
KINDS = [b'c', b'ms', b'g', b'm', b'h', b's', b'd', b'c', b'g', b'', b'x', b'C', b'mss', b'c ', b'1']
FIELDS = [b'|@0.5', b'|@.5', b'|@1', b'|@', b'|@x', b'|#k:v', b'|#image:repo/x:1.2', b'|#a,b,,c:d', b'|#', b'|#,', b'|#\x80', b'|#\xc3\xa9:"\\',
          b'|e:it-false,cn-x', b'|card:low', b'|c:ci-1', b'|c:', b'|c', b'|c:a:b', b'|T1656581400', b'|T07', b'|T', b'|T%d' % (2 ** 64 - 1),
          b'|T%d' % 2 ** 64, b'|', b'|x']
FRONTS = [b'_e{5,4}:title|text', b'_e{,', b'_e{:,', b'_e{|,', b'_e{5\n,', b'_e{5', b'_e{5,4', b'_e{a:1|c', b'_e:1|c', b'_sc|web|0', b'_sc|',
          b'_sc:1|c', b'_sc', b'_s|']
SEEDS = [line_of(row) for rows in CLIENTS.values() for row in rows] + [line for line, _ in OTHERS] + UNREADABLE + PACKETS + NOT_PACKETS


def spelled(r):
    """Returns the line of a metric with parts that some client may send."""
    values = b':'.join(r.choice(NUMBERS) for _ in range(r.choice((1, 1, 1, 0, 2, 3))))
    return r.choice(NAMES) + b':' + values + b'|' + r.choice(KINDS) + b''.join(r.choice(FIELDS) for _ in range(r.choice((0, 0, 1, 2, 3))))


def own(r):
    return made_line(r.randrange(1 << 20))


def mutated(r, line):
    """Returns a line with some bytes more, less, or in the place of others."""
    for _ in range(r.choice((1, 1, 2, 3))):
        at, to, byte = r.randint(0, len(line)), r.randint(0, len(line)), bytes([r.choice(BYTES)])
        line = line[:at] + r.choice((byte + line[at:], byte + line[at + 1:], line[at + 1:], line[min(at, to):], b''))
    return line


def arbitrary(r):
    some = BYTES if r.random() < 0.8 else range(256)
    return bytes(r.choice(some) for _ in range(r.choice((0, 1, 2, 3, 5, 8, 13, 40))))


def lengthened(r, line):
    """Returns a line in which some bytes come again and again, until it is about as long as UDP allows."""
    at = r.randint(0, len(line))
    to = min(len(line), at + r.randint(1, 6))
    return line[:at] + line[at:to] * (LONG // max(1, to - at)) + line[to:]


MAKERS = [spelled, spelled, own, arbitrary, lambda r: r.choice(SEEDS), lambda r: r.choice(FRONTS) + r.choice((b'', b'|#a:b', b'4}:x|y')),
          lambda r: mutated(r, spelled(r)), lambda r: mutated(r, own(r)), lambda r: mutated(r, r.choice(SEEDS)),
          lambda r: mutated(r, r.choice(FRONTS))]


def packets_of(r, made):
    """Returns packets of lines with ends of each kind."""
    packets = []
    for number in range(made):
        lines = [r.choice(MAKERS)(r) for _ in range(r.choice((1, 1, 1, 2, 3, 5)))]
        if number % EACH == 7:
            lines[0] = lengthened(r, lines[0])
        ends = [r.choice((b'\n', b'\n', b'\r\n', b'\n\n', b'\r')) for _ in lines]
        if r.random() < 0.7:
            ends[-1] = r.choice((b'', b'\r'))
        packets.append(b''.join(line + end for line, end in zip(lines, ends)))
    return packets


def printed(program, options, packets):
    """Returns the rows and the messages of a run that gets packets over a path, and its status. It prints into files,
    because it receives many packets before it prints, and a pipe could be full before that."""
    with tempfile.TemporaryDirectory() as room, tempfile.TemporaryFile() as output, tempfile.TemporaryFile() as errors:
        command = [program, '--count', str(len(packets)), *options, f'unix:{room}/s']
        with subprocess.Popen(command, stdout=output, stderr=errors) as run, socket.socket(socket.AF_UNIX, socket.SOCK_DGRAM) as sender:
            while run.poll() is None and sender.connect_ex(f'{room}/s'):
                time.sleep(0.01)
            sender.settimeout(LONGEST)
            try:
                for packet in packets:
                    sender.send(packet)
            except OSError:
                run.kill()  # it doesn't receive any more, so that rows are missing
            status = status_of(run)
        output.seek(0)
        errors.seek(0)
        return output.read().split(b'\n'), errors.read().split(b'\n'), status


def is_row(line, row):
    """Returns whether these are the columns of a line, with a remark if it has to have one."""
    columns, wanted = row.split(b'\t'), list(map(shown, parts_of(line)))
    if not has_remark(line):
        return columns == wanted
    remark = REMARK.fullmatch(columns[-1])
    return columns[:-1] == wanted and remark is not None and int(remark[1]) <= len(line) + 1


def is_object(line, row):
    """Returns whether this is the object of a line, with a remark if it has to have one."""
    number = lambda text: ('number', text)
    try:
        members = json.loads(row, object_pairs_hook=list, parse_int=number, parse_float=number)
    except ValueError:
        return False
    if not has_remark(line):
        return members == members_of(line)
    name, remark = members[-1]
    return members[:-1] == members_of(line) and name == 'remark' and REMARK.fullmatch(remark.encode()) is not None


def first_difference(wanted, given, agree):
    """Returns the first pair that doesn't agree, or has one part only, or None if there is no such pair."""
    pairs = itertools.zip_longest(wanted, given)
    return next((pair for pair in pairs if None in pair or not agree(*pair)), None)


def fuzz_cases(program, made=MADE, seed=SEED):
    """Yields the first row and the first message that aren't those of the model, of runs that get packets at random."""
    packets = packets_of(random.Random(seed), made)
    lines = [(packet, number, line) for packet, text in enumerate(packets, 1) for number, line in lines_of(text) if line]
    bad = [place for place in lines if parts_of(place[2])[0] == b'unreadable']
    refused = {packet for packet, _, _ in bad}
    messages = [b'statsd_watch: packet %d, line %d: wants NAME:VALUE|TYPE: %s' % (packet, number, shown(line)) for packet, number, line in bad]
    every, kept = [line for _, _, line in lines], [line for packet, _, line in lines if packet not in refused]
    for options, wanted, agree in ([], every, is_row), (['--json'], every, is_object), (['--strict'], kept, is_row):
        rows, told, status = printed(program, options, packets)
        yield f'packets at random, {options}', (first_difference(wanted, rows[:-1], agree), rows[-1], status), (None, b'', 2)
        yield f'what is told of them, {options}', first_difference([*messages, b''], told, bytes.__eq__), None
    found = collections.Counter((parts_of(line)[0], has_remark(line)) for line in every)
    kinds = [(b'metric', True), *((word, False) for word in (b'metric', b'event', b'check', b'unreadable'))]
    yield f'what the lines are: {found}', all(found[kind] > made // 100 for kind in kinds), True
