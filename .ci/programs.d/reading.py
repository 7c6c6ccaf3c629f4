"""The tests of `statsd_schedule` and `statsd_listen`, which read all of their input and then print a report."""
import os

from running import contents, report_line, result_of

ROWS = 'crates/test_scripts/data'
FOLDER, FULL = '.', '/dev/full'  # every read of the one fails, and every write to the other


def row_cases():
    """Yields each worked row: its name, its input, and the status, the output and the errors that it has to give."""
    for name in contents(f'{ROWS}/index', b'').decode().split():
        of = lambda ending, default: contents(f'{ROWS}/{name}.{ending}', default)
        yield name, of('in', b''), int(of('status', b'0')), of('out', b''), of('err', b'')


def read_cases(program, name, cases, good, bad):
    """Yields runs over inputs and over streams that fail: a name, what the run gave, and what it has to give. The programs
    ignore their arguments, but for those that ask for help."""
    command, source, full = [program, '--nothing'], os.open(FOLDER, os.O_RDONLY), os.open(FULL, os.O_WRONLY)
    unended, kept = os.pipe()
    for asking in (['--help'], ['x', '-h']):
        status, text, errors = result_of([program, *asking], source=unended)
        shown = text.startswith(f'Usage: {name} '.encode()) and b'\nStatus: 0 ' in text and text.endswith(f'| {name}\n'.encode())
        yield f'{asking}, without an end of the input', (status, shown, errors), (0, True, b'')
    yield 'help that fails', result_of([program, '--help'], b'', output=full), (1, b'', b'')
    os.close(unended)
    os.close(kept)
    for case, given, *wanted in cases:
        yield case, result_of(command, given), tuple(wanted)
    unread = f'{name}: input: cannot read\n'.encode()
    yield 'input that fails', result_of(command, source=source), (2, b'', unread)
    yield 'output that fails', result_of(command, good, output=full), (1, b'', b'')
    yield 'errors that fail', result_of(command, bad, errors=full), (2, b'', b'')
    os.close(source)
    os.close(full)


def schedule_cases(program):
    return read_cases(program, 'statsd_schedule', row_cases(), b'take\n', b'take take\n')


# Lines that are packets of metrics, alone and twice with a newline each.
PACKETS = [
    b'a:|ms', b':1|c', b'a:1|c|#', b'a:1|c|#,', b'a:1|c|c:', b'k:0.5|c', b'\xc3\xa9\\:1|c',
    b'a:1:2.5|ms|@0.5|#k:v,w|c:id|T7', b'a:-170141183460469231731687303715884105728|g',
    b'a:170141183460469231731687303715884105727|g', b'a:0|c|T18446744073709551615',
]
# Texts that are no packets of metrics, alone or after another line.
NOT_PACKETS = [
    b'\n', b'a:01|c', b'a:-0|c', b'a:+1|c', b'a:1.|g', b'a:.5|g', b'a:1.50|g', b'a::|ms', b'a,b:1|c', b'a|b:1|c', b'a:1|x',
    b'a:1|c|', b'a:1|c|@', b'a:1|c|T7|#t', b'a:1|c|c:id|#t', b'a:1|c|#k:v:w', b'a:1|c|T07', b'a:1|c|T18446744073709551616',
    b'a:170141183460469231731687303715884105728|g', b'a:0.0000000000000000000000000000001|g',
    b'a\nb:1|c', b'\xff:1|c', b'a:1|c|#\xc3', b'a:1|c|#\xc3:w', b'a:1|c|c:\x80',
]
NAMES = ['', 'a', 'some.counter', 'gr\u00f6\u00dfe', '#@T=c']
MOST, MADE = 2 ** 127 - 1, 4000
NUMBERS = [(0, 0), (7, 0), (-1, 0), (5, 1), (-25, 2), (MOST, 0), (-MOST - 1, 0), (-MOST - 1, 30), (1, 30), (2 ** 64 - 1, 0),
           (10 ** 20, 3)]
TIMES, KINDS = [0, 1234567890, 2 ** 64 - 1], 'c ms g m h s d'.split()


def decimal(mantissa, places):
    """Returns the text of a number, in lowest form."""
    digits = str(abs(mantissa)).rjust(places + 1, '0')
    whole, fraction = digits[:len(digits) - places], digits[len(digits) - places:].rstrip('0')
    return '-' * (mantissa < 0) + whole + ('.' + fraction if fraction else '')


def made_line(index):
    """Returns the line of a metric. Each field changes with the index at its own rate, so that all combinations
    occur."""
    turn = lambda values, at: values[at % len(values)]
    tags = []
    for place in range(index % 4):
        keyed = index // 4 + place
        tags.append((turn(NAMES, keyed) + ':' if keyed % 3 else '') + turn(NAMES, index // 7 + place))
    numbers = [decimal(*turn(NUMBERS, index // 3 + place)) for place in range(index % 3)]
    return ''.join([
        turn(NAMES, index), ':', ':'.join(numbers), '|', turn(KINDS, index),
        '|@' + decimal(*turn(NUMBERS, index)) if index % 13 < 6 else '',
        '|#' + ','.join(tags) if tags else '',
        '|c:' + turn(NAMES, index // 9) if index % 9 < 4 else '',
        f'|T{turn(TIMES, index)}' if index % 17 < 8 else '',
    ]).encode()


def packet_cases():
    """Yields cases of statsd_listen: a name, an input, and the status, the output and the errors that it has to give."""
    packet = lambda lines: b''.join(line + b'\n' for line in lines)
    printed = lambda lines: b''.join(report_line(line, b'line') for line in lines)
    no_metrics = (2, b'', b'statsd_listen: not a packet of metrics\n')
    yield 'no packet', b'', 0, b'', b''
    for line in PACKETS:
        yield f'{line} alone', line, 0, printed([line]), b''
        yield f'{line} twice', packet([line] * 2), 0, printed([line] * 2), b''
    lines = [made_line(index) for index in range(MADE)]
    yield 'metrics of each shape', packet(lines), 0, printed(lines), b''
    yield 'no last newline', b'a:1|c\nb:2|c', *no_metrics
    for text in NOT_PACKETS:
        yield f'{text} alone', text, *no_metrics
        yield f'{text} behind a line', packet([b'a:1|c', text]), *no_metrics


def listen_cases(program):
    return read_cases(program, 'statsd_listen', packet_cases(), b'a:1|c', b'a:01|c')
