"""Words of the command line of `statsd_send` and variables of its environment, and what it says about them."""
import os


def error_lines(*lines):
    return b''.join(b'statsd_send: %s\n' % line for line in lines)


def system_error(doing, number):
    """Returns the message for a system call that fails while statsd_send does this."""
    return error_lines(f'{doing}: {os.strerror(number)} (os error {number})'.encode())


LONGEST_PATH = '/nowhere/' + 'a' * 98  # a path of 107 bytes, the most that a Unix socket can have
ONE = ['c', 'visits', '1', 'page:home']
ONE_SENT = b'visits:1|c|#page:home\n'
EVENT = ['event', 'Deploy', 'version 2.1']
CHECK = ['check', 'web', 'critical']
NO_HOST = 'a' * 64
EVENT_FIELDS = ('--host web-1 --aggregation-key deploy --priority low --source jenkins --alert success --time 7 --tag k:v'
                ' --container id').split()
EACH = '--prefix p --tag k:v --tag w --container id --time +.7e1 --rate 5e-1'.split()
OPTIONS = (b'--to --prefix --tag --container --cardinality --time --rate --sample --capacity --flush-every --aggregate --wait --drop '
           b'--strict --clean --print --help --version --host --aggregation-key --priority --source --alert --message').split()
WANTS_WORDS = b'wants KIND NAME VALUE [TAG ..], as in `c visits 1 page:home`'
WANTS_KIND = b'KIND is c, ms, g, m, h, s, d or the name of one, as in `count visits 1`'
WANTS_NAME = b'NAME has no colon, comma, bar or newline, as in `c site.visits 1`'
WANTS_VALUES = {
    'c': b'VALUE of c is a whole number, as in `c visits 1`',
    'ms': b'VALUE of ms is milliseconds from 0, or durations, as in `ms wait 12.5,1.25s`',
    'g': b'VALUE of g is a number, a change as +5, or a level as =-5, as in `g load 0.75`',
    'm': b'VALUE of m is a whole number from 0, as in `m requests 1`',
    'h': b'VALUE of h is numbers, or durations, which are sent in nanoseconds, as in `h size 0.75,12`',
    's': b'VALUE of s has no colon, bar or newline, as in `s users alice`',
    'd': b'VALUE of d is numbers, as in `d size 0.75,12`',
}
WANTS_TAG = b'TAG is K:V or V, and has no comma, bar or newline, as in `c visits 1 page:home`'
WANTS_LENGTH = b'the line is longer than a datagram can be'
WANTS_EVENT = b"wants event TITLE TEXT [TAG ..], as in `event Deploy 'version 2.1'`"
WANTS_CHECK = b'wants check NAME STATUS [TAG ..], as in `check web ok`'
WANTS_STATUS = b'STATUS is ok, warning, critical, unknown or 0 to 3, as in `check web critical`'
WANTS_TEXT = b'not UTF-8: wants text, as in `c visits 1 page:home`'
WANTED = {
    'DD_DOGSTATSD_URL': 'udp://HOST[:PORT] or unix:///PATH, datagrams only',
    'DD_DOGSTATSD_SOCKET': 'an absolute path, as in /run/dsd.socket',
    'DD_AGENT_HOST': 'a host, as in DD_AGENT_HOST=127.0.0.1',
    'DD_DOGSTATSD_PORT': 'a port, as in DD_DOGSTATSD_PORT=8125',
    'STATSD_HOST': 'a host, as in STATSD_HOST=127.0.0.1',
    'STATSD_PORT': 'a port, as in STATSD_PORT=8125',
    'DD_DOGSTATSD_DISABLE': '1, true or yes, or 0, false or no',
    'STATSD_ENABLED': '1, true or yes, or 0, false or no',
    'STATSD_MAXUDPSIZE': '1 to 65507 bytes, as in STATSD_MAXUDPSIZE=1432',
    'STATSD_IPV6': '1, true or yes, or 0, false or no',
    'DD_ENV': 'no commas, bars or newlines, as in DD_ENV=prod',
    'DD_SERVICE': 'no commas, bars or newlines, as in DD_SERVICE=shop',
    'DD_VERSION': 'no commas, bars or newlines, as in DD_VERSION=1.2.3',
    'DD_TAGS': 'tags K:V or V, no bars or newlines, as in DD_TAGS=a:b,c',
    'DD_ENTITY_ID': 'no commas, bars or newlines, as in DD_ENTITY_ID=9f2c',
}
# Variables and texts with which they can't be used. What the library's tests show of the others is not shown again.
MALFORMED = [
    ('DD_DOGSTATSD_URL', 'tcp://host:1'), ('DD_DOGSTATSD_URL', 'udp://:1'), ('DD_DOGSTATSD_URL', f'unix://{LONGEST_PATH}a'),
    ('DD_DOGSTATSD_SOCKET', 'run/s'), ('DD_AGENT_HOST', '/run/s'), ('DD_DOGSTATSD_PORT', '0'), ('STATSD_HOST', b'\xff'), ('STATSD_PORT', '65536'),
    ('STATSD_PORT', 'http'), ('STATSD_PORT', b'\xff'), ('DD_ENV', 'a,b'), ('DD_SERVICE', 'a|b'), ('DD_VERSION', 'a\nb'),
    ('DD_TAGS', ':v'), ('DD_ENTITY_ID', ','), ('DD_DOGSTATSD_DISABLE', 'on'), ('STATSD_ENABLED', 'off'), ('STATSD_MAXUDPSIZE', '0'),
    ('STATSD_IPV6', 'on'),
]
OVERRIDDEN = {'DD_DOGSTATSD_URL': 'x', 'DD_DOGSTATSD_SOCKET': 'x', 'DD_AGENT_HOST': '/', 'DD_DOGSTATSD_PORT': 'x', 'STATSD_HOST': '/',
              'STATSD_PORT': 'http'}
WANTS_TARGET = b' wants HOST:PORT or unix:PATH, as in --to 127.0.0.1:8125'


# Words of the command line that can't be read, each with its message.
UNUSABLE = [
    *[(['--to', to], b'--to %s:' % to.encode() + WANTS_TARGET)
      for to in ['nowhere', 'host:', ':1', 'host:x', 'host:0', 'host:+80', 'host:65536', '[::1]', '1', 'unix', 'unix:', 'udp://host',
                 'udp://:1']],
    *[([*before, '--to', f'unix:{LONGEST_PATH}a', *ONE],
       f'--to unix:{LONGEST_PATH}a: the path of a Unix socket has more than 107 bytes'.encode()) for before in ([], ['--print'])],
    (['--prefix', 'a|b'], b'--prefix a|b: wants a name without colons, commas and bars, as in --prefix my.service'),
    (['--tag', 'a,b'], b'--tag a,b: wants K:V or V, as in --tag env:live'),
    (['--container', 'a,b'], b'--container a,b: wants an id, as in --container 9f2c'),
    *[(['--cardinality', word], b'--cardinality %s: wants none, low, orchestrator or high, as in --cardinality low' % word.encode())
      for word in ['', 'Low', 'low ']],
    *[(['--rate', rate], b'--rate %s: wants a number above 0, as in --rate 0.1' % rate.encode()) for rate in ['-1', '0.0', '-0e9', '1e']],
    *[(['--sample', chance], b'--sample %s: wants a number above 0 and at most 1 with at most 18 decimal places, as in --sample 0.1'
       % chance.encode()) for chance in ['0', '-.5', '1.01', '1e-19', 'x']],
    (['--time', '1.5'], b'--time 1.5: wants seconds since 1970, as in --time 1700000000'),
    (['--time', 'x'], b'--time x: wants seconds since 1970, as in --time 1700000000'),
    (['--capacity', 'x'], b'--capacity x: wants a number of bytes, as in --capacity 512'),
    (['--flush-every', 'x'], b'--flush-every x: wants a number of milliseconds, as in --flush-every 1000'),
    (['--wait', '-1'], b'--wait -1: wants a number of milliseconds, as in --wait 1000'),
    (['c', 'visits'], WANTS_WORDS),
    (['x', 'visits', '1'], WANTS_KIND),
    (['c', 'a:b', '1'], WANTS_NAME),
    (['c', 'visits', 'one'], WANTS_VALUES['c']),
    (['g', 'load', '-1one'], WANTS_VALUES['g']),
    (['g', 'load', '+one'], WANTS_VALUES['g']),
    *[(['g', 'load', level], WANTS_VALUES['g']) for level in ['=', '==5', '=one', '=+', '=1,2', '=-1,-2', '=5s', '= 5', '=-']],
    *[([kind, 'load', '=5'], WANTS_VALUES[kind]) for kind in ['c', 'ms', 'm', 'h', 'd']],
    *[(['s', 'users', member], WANTS_VALUES['s']) for member in ['', 'a:b', 'a|b', 'a\nb']],
    (['c', 'visits', '1', 'a,b'], WANTS_TAG),
    (['c', b'\xff', '1'], b'a word of the command line is ' + WANTS_TEXT),
    *[(words, WANTS_EVENT) for words in (['event'], ['event', 'Deploy'])],
    *[(words, WANTS_CHECK) for words in (['check'], ['check', 'web'])],
    *[(['check', 'web', status], WANTS_STATUS) for status in ['OK', '4', '-1', '', '00', 'warn']],
    *[(['check', name, 'ok'], WANTS_NAME) for name in ['', 'a:b', 'a,b', 'a|b', 'a\nb']],
    (['event', 'a', 'b', 'k:v|w'], WANTS_TAG),
    *[(['--clean', *words], why) for words, why in [
        (['event', 'a', 'b', ''], WANTS_TAG), (['check', '', 'ok'], WANTS_NAME), (['c', '', '1'], WANTS_NAME),
        (['c', 'a', '1', ''], WANTS_TAG), (['check', 'a|b', 'OK'], WANTS_STATUS),
        (['--host', '', *EVENT], b'--host : wants a name without colons, commas, bars and newlines, as in --host web-1'), (['s', 'users', 'a|b'], WANTS_VALUES['s']),
        (['--tag', '', *ONE], b'--tag : wants K:V or V, as in --tag env:live'),
        (['--prefix', '', *ONE], b'--prefix : wants a name without colons, commas and bars, as in --prefix my.service')]],
    (['check', 'a', 'ok', 'k,v'], WANTS_TAG),
    *[(['--host', host, *EVENT], b'--host %s: wants a name without colons, commas, bars and newlines, as in --host web-1' % host.encode())
      for host in ['', 'a:b', 'a,b', 'a|b', 'a\nb']],
    (['--aggregation-key', 'a|b', *EVENT],
     b'--aggregation-key a|b: wants a text without colons, commas, bars and newlines, as in --aggregation-key deploy'),
    (['--source', 'a:b', *EVENT], b'--source a:b: wants a text without colons, commas, bars and newlines, as in --source jenkins'),
    (['--priority', 'high', *EVENT], b'--priority high: wants low or normal, as in --priority low'),
    (['--alert', 'fatal', *EVENT], b'--alert fatal: wants error, warning, info or success, as in --alert error'),
    (['--message', 'a|b', *CHECK], b"--message a|b: wants a text without bars, as in --message 'no answer'"),
    *[([*option, *words], b"%s can't be used with %s" % (option[0].encode(), what)) for words, what, options in [
        (ONE, b'a metric', [['--host', 'h'], ['--aggregation-key', 'k'], ['--priority', 'low'], ['--source', 's'], ['--alert', 'info'],
                            ['--message', 'm']]),
        ([], b'a metric', [['--alert', 'info']]),
        (EVENT, b'an event', [['--message', 'm'], ['--rate', '0.5'], ['--sample', '0.5'], ['--cardinality', 'low']]),
        (CHECK, b'a service check', [['--aggregation-key', 'k'], ['--priority', 'low'], ['--source', 's'], ['--alert', 'info'],
                                     ['--rate', '0.5'], ['--sample', '0.5'], ['--cardinality', 'low']]),
    ] for option in options],
]
# Words that are no options of the program, each with a part of the message.
STRAY = [
    (['--nothing', 'x'], b"unexpected argument '--nothing' found"),
    (['--flsh-every', '0'], b"a similar argument exists: '--flush-every'"),
    ([*ONE, '--stict'], b"a similar argument exists: '--strict'"),
    ([*ONE, '-x'], b"unexpected argument '-x' found"),
    (['--rate', '0.5', '--sample', '0.5', *ONE], b"cannot be used with"),
    (['--strict', '--clean', *ONE], b"cannot be used with"),
    (['--to'], b"a value is required for '--to <HOST:PORT>'"),
]
# Words, and the line that is printed for them.
WRITTEN = [
    (['c', 'a', '1', '--prefix', 'p', 't', '--tag=k:v'], b'p.a:1|c|#k:v,t\n'),
    (['--prefix=p', 'c', 'a', '1'], b'p.a:1|c\n'),
    (['--clean', '--clean', *ONE], ONE_SENT),
    (['c', 'x:y|z', '1', 'new,1:a|b:c\n', 'w|', ' ,', '--container', 'c:d', '--tag', 'k,1:v:w|x', '--tag', '|', '--prefix', 'a|b', '--clean'],
     b'a_b.x_y_z:1|c|#k_1:v:w_x,_,new_1:a_b:c_,w_, _|c:c_d\n'),
    (['--clean', '--tag', 'k|l:v', 'event', 'a', 'b'], b'_e{1,1}:a|b|#k_l:v\n'),
    (['--clean', '--host', 'a:b,c', '--aggregation-key', '|', '--source', 'a\nb', '--container', 'c|d', 'event', 'a|b', 'c,d\n', 'k,l:v:w|', 't|'],
     b'_e{3,5}:a|b|c,d\\n|h:a_b_c|k:_|s:a_b|#k_l:v:w_,t_|c:c_d\n'),
    (['check', 'a:b|c', 'critical', 'k:v,w', '--clean', '--message', 'm:|x|', '--host', '\n'], b'_sc|a_b_c|2|h:_|#k:v_w|m:m\\:_x_\n'),
    (['--clean', *EVENT, *EVENT_FIELDS, 'own:v'],
     b'_e{6,11}:Deploy|version 2.1|d:7|h:web-1|k:deploy|p:low|s:jenkins|t:success|#k:v,own:v|c:id\n'),
    (['--to', 'host:1', '--to', 'unix:/nowhere', '--strict', '--strict', *ONE], ONE_SENT),
    (['c', 'a', '1', '--', '--prefix', '-1'], b'a:1|c|#--prefix,-1\n'),
    (['g', 'load', '-1.5'], b'load:-1.5|g\n'),
    *[(['--cardinality', word, *ONE], b'visits:1|c|#page:home|card:%s\n' % word.encode()) for word in ['none', 'low', 'orchestrator', 'high']],
    ([*EACH, '--cardinality', 'high', '--cardinality', 'low', 'c', 'a', '1'], b'p.a:1|c|@0.5|#k:v,w|c:id|card:low|T7\n'),
    (['d', 'x', '-1,2'], b'x:-1:2|d\n'),
    (['c', ' a', '1'], b' a:1|c\n'),
    (['g', 'load', '-.5e1'], b'load:-5|g\n'),
    (['g', 'load', '+3'], b'load:+3|g\n'),
    (['g', 'load', '+.50e1'], b'load:+5|g\n'),
    (['g', 'load', '=5'], b'load:5|g\n'),
    (['gauge', 'load', '=+.50e1', 't'], b'load:5|g|#t\n'),
    (['g', 'load', '=0.5'], b'load:0.5|g\n'),
    (['g', 'load', '=-0.0'], b'load:0|g\n'),
    (['g', 'load', '=-5'], b'load:0|g\nload:-5|g\n'),
    ([*EACH, 'gauge', 'load', '=-.5', 't'], b'p.load:0|g|@0.5|#k:v,w,t|c:id|T7\np.load:-0.5|g|@0.5|#k:v,w,t|c:id|T7\n'),
    (['--clean', 'g', 'a:b', '=-5', 'k|l'], b'a_b:0|g|#k_l\na_b:-5|g|#k_l\n'),
    (['--sample', '1', 'g', 'load', '=-5'], b'load:0|g|@1\nload:-5|g|@1\n'),
    (['s', 'users', '=5'], b'users:=5|s\n'),
    (['s', 'users', 'alice,bob b'], b'users:alice,bob b|s\n'),
    (['s', 'users', '+042'], b'users:+042|s\n'),
    (['ms', 'rtt', '12.5'], b'rtt:12.5|ms\n'),
    (['ms', 'took', '1.2345s,999us'], b'took:1234.5:0.999|ms\n'),
    (['--sample', '1', 'c', 'a', '1'], b'a:1|c|@1\n'),
    (EVENT, b'_e{6,11}:Deploy|version 2.1\n'),
    (CHECK, b'_sc|web|2\n'),
    ([*EVENT, *EVENT_FIELDS, 'own:v'],
     b'_e{6,11}:Deploy|version 2.1|d:7|h:web-1|k:deploy|p:low|s:jenkins|t:success|#k:v,own:v|c:id\n'),
    (['--message', 'no answer:m:', '--time', '7', '--container', 'id', *CHECK, 'own', '--host', 'web-1', '--tag', 'k:v'],
     b'_sc|web|2|d:7|h:web-1|#k:v,own|c:id|m:no answer:m\\:\n'),
    (['--message', '', *CHECK], b'_sc|web|2\n'),
    (['--prefix', 'p', *EVENT], b'_e{6,11}:Deploy|version 2.1\n'),
    (['--aggregate', '--flush-every', '0', '--prefix', 'p', *CHECK], b'_sc|web|2\n'),
    (['event', 'a|b:c,\n', ''], b'_e{8,0}:a|b:c,\\n|\n'),
    (['event', '', '\u00e9', 'k'], b'_e{0,2}:|\xc3\xa9|#k\n'),
    (['event', 'event', 'check'], b'_e{5,5}:event|check\n'),
    *[(['event', 'a', 'b', '--alert', alert], b'_e{1,1}:a|b|t:%s\n' % alert.encode()) for alert in ['error', 'warning', 'info', 'success']],
    *[(['event', 'a', 'b', '--priority', priority], b'_e{1,1}:a|b|p:%s\n' % priority.encode()) for priority in ['low', 'normal']],
    *[(['check', 'a', status], b'_sc|a|%d\n' % number) for number, name in enumerate(['ok', 'warning', 'critical', 'unknown'])
      for status in (name, str(number))],
]
