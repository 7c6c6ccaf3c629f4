"""Streams of lines of many clients, and what a client in Python sends for them. It takes the package that Python finds."""
from statsd_proved import SpyStatsClient

from other_clients import CLIENTS, OTHERS, UNREADABLE, line_of

MOST_LINES = 200

NUMBERS = ['1', '2', '3', '12', '+2', '-3', '07', '3.0', '1e2', '-1E+1', '.5', '0.50', '-.25', '+1.5', '2.5e1', '100.000000', '5.', '-0',
           '9223372036854775807', 'NaN', '']
MEMBERS = ['alice', 'bob', '5', '05', '5.0', '-5', 'a b', '']
FIELDS = ['', '', '', '', '|@0.5', '|@.5', '|@2.5e-1', '|@1.0', '|#k:v', '|#v:w:x,k:v', '|#k:v,v:w:x', '|#a|@0.5', '|@0.5|#a',
          '|#a|c:in-1|e:it-false', '|#a|card:low', '|T7', '|#a|T7', '|x', '|']
KINDS = ['c'] * 5 + ['g'] * 4 + ['s'] * 4 + ['ms', 'h', 'd', 'm', 'x']
SENT = [line_of(row) for rows in CLIENTS.values() for row in rows] + [line for line, _ in OTHERS] + UNREADABLE


def is_utf8(line):
    return line.decode(errors='replace').encode() == line


LINES = [line.decode() for line in SENT if is_utf8(line)]


def stream_of(r):
    """Returns lines of clients that were observed, and lines of their kind. Few of them have a name or fields of their own, so
    that there is much to add up."""
    observed, kinds, fields = r.sample(LINES, 4), r.sample(KINDS, 4), r.sample(FIELDS, 3)
    lines = []
    for _ in range(r.randint(1, MOST_LINES)):
        kind = r.choice(kinds)
        count = r.choice((1, 1, 1, 1, 1, 1, 2))
        values = [r.choice(MEMBERS if kind == 's' else NUMBERS) for _ in range(count)]
        lines.append(r.choice(observed) if r.random() < 0.2 else f'{r.choice("ab")}:{":".join(values)}|{kind}{r.choice(fields)}')
    return lines


def flushes_of(r, lines):
    """Returns after which of these lines a client flushes."""
    return {number for number in range(len(lines)) if r.random() < 0.01}


def sent(lines, flushes, aggregate):
    """Returns the lines that a client sends for these ones."""
    client = SpyStatsClient(aggregate=aggregate, maxudpsize=1 << 16)
    for number, line in enumerate(lines):
        client.raw(line)
        if number in flushes:
            client.flush()
    client.flush()
    return client.lines
