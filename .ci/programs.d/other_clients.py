"""Lines of other clients, as data: what `statsd_watch` prints of each."""

# What the reader of statsd_listen wants at the byte that it can't read.
NAME, NUMBER = b'a name and then a colon', b'a number, as 1 or -0.5, and then a bar'
TYPE, FIELDS = b'the type c, ms, g, m, h, s or d', b'@RATE, #TAGS, c:CONTAINER and TTIME, in this order'

# For each client the lines that calls of it send, in the order of the calls. A row has the name, the values, the type and the
# other fields. If the reader of statsd_listen can't read the line, it has the first byte that this reader can't read and what
# it wants there.
CLIENTS = {
    'statsd 4.0.1 for Python': [
        (b'p.a', b'1', b'c', b''), (b'p.a', b'3', b'c', b'|@0.9999'), (b'p.a', b'-1', b'c', b''),
        (b'p.t', b'12.500000', b'ms', b'', 14, NUMBER), (b'p.t', b'320.000000', b'ms', b'', 15, NUMBER),
        (b'p.g', b'5', b'g', b''), (b'p.g', b'0', b'g', b''), (b'p.g', b'-5', b'g', b''),
        (b'p.g', b'+3', b'g', b'', 5, NUMBER), (b'p.g', b'-3', b'g', b''),
        (b'p.g', b'1e-07', b'g', b'', 6, NUMBER), (b'p.g', b'1e+22', b'g', b'', 6, NUMBER),
        (b'p.s', b'alice', b's', b'', 5, NUMBER), (b'p.s', b'5', b's', b''),
        (b'p.x', b'1', b'c', b''), (b'p.y', b'0.500000', b'ms', b'', 13, NUMBER),
    ],
    'aiodogstatsd 0.16 for Python': [
        (b'p.a', b'1', b'c', b'|#env:prod'), (b'p.a', b'-1', b'c', b'|#env:prod'),
        (b'p.g', b'0.5', b'g', b'|#env:prod,url:http://x', 29, FIELDS),
        (b'p.h', b'0.1', b'h', b'|#env:prod'), (b'p.d', b'1e-05', b'd', b'|#env:prod', 6, NUMBER),
        (b'p.t', b'10', b'ms', b'|#env:prod,image:repo/x:1.2', 33, FIELDS),
        (b'p.r', b'1', b'c', b'|@0.9999|#env:prod'),
    ],
    'Net::Statsd for Perl': [
        (b'a', b'1', b'c', b''), (b'a', b'1', b'c', b'|@0.9999'), (b't', b'12.5', b'ms', b''),
        (b'g', b'10', b'g', b''), (b'g', b'-0.5', b'g', b''), (b'u', b'3', b'c', b''),
    ],
    'statsd 1.4 for Ruby': [
        (b'p.a', b'1', b'c', b''), (b'p.c', b'3', b'c', b''), (b'p.g', b'0.5', b'g', b''), (b'p.g', b'-1', b'g', b''),
        (b'p.t', b'12.5', b'ms', b''), (b'p.s', b'alice', b's', b'', 5, NUMBER), (b'p.b', b'0', b'ms', b''),
        (b'p.x', b'1', b'c', b''), (b'p.y', b'1.0e-05', b'g', b'', 8, NUMBER),
    ],
    'lynx 0.2.1 for Node': [
        (b'a', b'1', b'c', b''), (b'b', b'-1', b'c', b''), (b't', b'12.5', b'ms', b''), (b'g', b'-3', b'g', b''),
        (b'g', b'1e+21', b'g', b'', 4, NUMBER), (b's', b'alice', b's', b'', 3, NUMBER),
        (b'x', b'1', b'c', b'|@0.9999'), (b'y', b'2', b'ms', b'|@0.9999'),
    ],
    'monasca-statsd 2.5 for Python': [
        (b'p.a', b'1', b'c', b"|#{'env': 'prod'}"), (b'p.g', b'5', b'g', b"|#{'env': 'prod', 'd': 'x'}"),
        (b'p.t', b'12.5', b'ms', b"|#{'env': 'prod'}"),
    ],
    'printf and bc in a shell': [
        (b'a', b'1', b'c', b''), (b'a', b'1', b'c', b''), (b'load', b'0.50', b'g', b'', 10, NUMBER),
        (b'a', b'.25', b'g', b'', 3, NUMBER), (b'a', b'0.50', b'g', b'', 7, NUMBER),
    ],
    'DogStatsD': [
        (b'a', b'1', b'c', b'|#env:prod,url:http://x:80/', 25, FIELDS), (b'a', b'1', b'c', b'|#image_tag:v1:2', 20, FIELDS),
        (b'a', b'1', b'c', b'|#a:b|c:in-123|e:it-false,cn-x', 21, FIELDS), (b'a', b'1', b'c', b'|#a|card:low', 11, FIELDS),
        (b'a', b'1', b'c', b'|#a:b|@0.5', 12, FIELDS), (b'a', b'1', b'c', b'|#a:b|T1656581400|c:ci-x', 23, FIELDS),
        (b'a', b'1:2:3', b'd', b'|@0.50|#a:b', 16, FIELDS), (b'a', b'0.50', b'g', b'', 7, NUMBER),
        (b'a', b'1e-05', b'g', b'', 4, NUMBER), (b'a', b'NaN', b'g', b'', 3, NUMBER), (b'a', b'+3', b'g', b'', 3, NUMBER),
        (b'u', b'alice', b's', b'', 3, NUMBER), (b'a', b'1', b'c', b'|#'), (b'a.b,c=d', b'1', b'c', b'', 4, NAME),
    ],
    'several clients, also that of this repository for Python': [
        (b'load', b'+5', b'g', b'', 6, NUMBER), (b'users', b'alice', b's', b'', 7, NUMBER),
        (b't', b'100.000000', b'ms', b'', 13, NUMBER), (b'a', b'1', b'c', b'|#url:http://x:80', 16, FIELDS),
        (b'a', b'1', b'c', b'|#k:v|@0.1', 12, FIELDS), (b'a', b'1', b'c', b'|@1.0', 11, FIELDS),
        (b'a', b'1.50', b'g', b'', 7, NUMBER), (b'a', b'1e3', b'g', b'', 4, NUMBER),
        (b'a', b'1', b'c', b'|#k:v|c:abc|e:it-false|card:low', 18, FIELDS),
    ],
    'nobody that is known': [
        (b'a', b'.5', b'g', b'', 3, NUMBER), (b'a', b'-0', b'g', b'', 5, NUMBER), (b'', b'1', b'c', b''),
        (b'a', b'', b'c', b''),
        (b'a', b'1', b'c', b'|c:id|e:it-false,cn-x|card:low', 12, FIELDS), (b'a', b'1', b'c', b'|x', 7, FIELDS),
        (b'a', b'1', b'c', b'|', 7, FIELDS), (b'a', b'1', b'x', b'', 5, TYPE), (b'a', b'1', b'', b'', 5, TYPE),
        (b'gr\xc3\xb6\xc3\x9fe.w\xc3\xa4rme', b'+3', b'g', b'', 16, NUMBER),
        (b'a\tb', b'\xff', b'c', b'', 5, NUMBER), (b'\xff', b'1', b'c', b'|#\x80', 1, NAME),
    ],
}
# Lines of DogStatsD that are no metrics, and what each is.
OTHERS = [(b'_e{5,4}:title|text|t:warning|#a:b', b'event'), (b'_e{5,4}:title|text', b'event'), (b'_e{5,4', b'event'),
          (b'_sc|web|0|#a:b|m:ok', b'check'), (b'_sc|svc|0', b'check'), (b'_sc|', b'check')]
# Lines that no server can read, because they have no bar, or no colon before the first bar.
UNREADABLE = [b'a', b'a:1', b'a|c', b'a|b:1', b'|', b'_e{5', b'_sc', b'\xff']


def shown(part):
    """Returns a part as it is printed: what isn't printable ASCII with an escape."""
    escaped = lambda byte: b'\\\\' if byte == 92 else b'%c' % byte if 32 <= byte <= 126 else b'\\x%02x' % byte
    return b''.join(map(escaped, part))


def line_of(row):
    """Returns the line of the parts of a row."""
    name, values, kind, fields = row[:4]
    return name + b':' + values + b'|' + kind + fields


def printed_of(row):
    """Returns what is printed of a row."""
    columns = [b'metric', *map(shown, row[:4])]
    if len(row) > 4:
        columns.append(b'byte %d: statsd_listen wants %s' % row[4:])
    return b'\t'.join(columns) + b'\n'
