"""Runs of `statsd_send` that need no more than words, an environment and an input: what each of them has to give."""
import errno, os

from running import report_line
from send_words import (CHECK, EACH, EVENT, LONGEST_PATH, MALFORMED, NO_HOST, ONE, ONE_SENT, OVERRIDDEN, UNUSABLE, WANTED, WANTS_KIND, WANTS_LENGTH,
                        WANTS_NAME, WANTS_TAG, WANTS_TEXT, WANTS_VALUES, WANTS_WORDS, WRITTEN, error_lines, system_error)

# Options; and texts, each with the lines that are sent and the messages about its other lines.
ADDING = ['--print', '--prefix', 'p', '--tag', 'k:v']
SENT_TEXTS = [
    (b'c visits 1', b'p.visits:1|c|#k:v\n', b''),
    (b'\n\nms wait 12,250 beta\n\n', b'p.wait:12:250|ms|#k:v,beta\n', b''),
    (b'gauge load 0.75\nset users -5\n', b'p.load:0.75|g|#k:v\np.users:-5|s|#k:v\n', b''),
    (b'ms a 1250ms,1.25s,7\ntime b 2000us\nh c 1.25s,2us,3ns,0.5\n',
     b'p.a:1250:1250:7|ms|#k:v\np.b:2|ms|#k:v\np.c:1250000000:2000:3:0.5|h|#k:v\n', b''),
    (b'c a 1\r\nc b 2 t:x\r\n\r\nc c 3\r', b'p.a:1|c|#k:v\np.b:2|c|#k:v,t:x\np.c:3|c|#k:v\n', b''),
    (b'count a 18446744073709551615\nc b -9223372036854775808',
     b'p.a:18446744073709551615|c|#k:v\np.b:-9223372036854775808|c|#k:v\n', b''),
    (b'  c   visits 1  page:home   beta \n   \nc a 1 ', b'p.visits:1|c|#k:v,page:home,beta\np.a:1|c|#k:v\n', b''),
    (b'g load 0.50\nc visits 1.0\nms wait 7.00,1.250s\nd x -2.500,0.0\n',
     b'p.load:0.5|g|#k:v\np.visits:1|c|#k:v\np.wait:7:1250|ms|#k:v\np.x:-2.5:0|d|#k:v\n', b''),
    (b'g load 1.\n c \nc a 1.50\ng load 00.5\ng load -0.0\n', b'p.load:1|g|#k:v\np.load:0.5|g|#k:v\np.load:0|g|#k:v\n',
     error_lines(b'line 2: ' + WANTS_WORDS, b'line 3: ' + WANTS_VALUES['c'], b'2 of 5 lines: cannot read')),
    (b'g a .5\ng b +3\nc c 1e3\nms d 1.5e3,+2,1e+06,08\nd e -.5E-1,-0.0\nm f 1e+06\ns g 2e0\nh h 1.5e-3,1.5ms\n',
     b'p.a:0.5|g|#k:v\np.b:+3|g|#k:v\np.c:1000|c|#k:v\np.d:1500:2:1000000:8|ms|#k:v\np.e:-0.05:0|d|#k:v\np.f:1000000|m|#k:v\n'
     b'p.g:2e0|s|#k:v\np.h:0.0015:1500000|h|#k:v\n', b''),
    (b'ms a 1.5\nms b 1ns,1.999999ms\nms c 1.5ms,1.0005s\ns d 9223372036854775808\ns e b,c t\ng f +0 t\ng g +1e-2\n',
     b'p.a:1.5|ms|#k:v\np.b:0.000001:1.999999|ms|#k:v\np.c:1.5:1000.5|ms|#k:v\np.d:9223372036854775808|s|#k:v\np.e:b,c|s|#k:v,t\n'
     b'p.f:+0|g|#k:v,t\np.g:+0.01|g|#k:v\n', b''),
    (b'c a 1\nc\nd b 0.5,2\nx y 1\nc z 1.5\n', b'p.a:1|c|#k:v\np.b:0.5:2|d|#k:v\n',
     error_lines(b'line 2: ' + WANTS_WORDS, b'line 4: ' + WANTS_KIND, b'line 5: ' + WANTS_VALUES['c'], b'3 of 5 lines: cannot read')),
    (b'c \xff 1\nc a\0 1\n', b'p.a\0:1|c|#k:v\n', error_lines(b'line 1: ' + WANTS_TEXT, b'1 of 2 lines: cannot read')),
]
# Texts of which no line is sent, each with its message.
UNSENT = [
    (b'c a:b 1', WANTS_NAME), (b'c a 1 b:c|d', WANTS_TAG), (b'c a 1  b  c,d', WANTS_TAG), (b'  c  1  ', WANTS_WORDS),
    *[(text, WANTS_VALUES[text.split()[0].decode()]) for text in [
        b'c a 1,2', b'm a -1', b'ms a -0.5', b'c a 1.5', b'c a 15e-1', b's a b:c', b's a |', b'g a +', b'g a ++1', b'g a +1,2',
        b'm a -1e3', b'c a 2e19', b'g a 1e', b'g a .', b'g a 1e39', b'g a nan', b'c a 1s', b'h a .5ms', b'h a 1e3ns', b'h a +1s',
        b'g a 1ms', b'd a 1ns',
        b'ms a 0.5ns', b'ms a -1s', b'ms a 1m', b'ms a s', b'h a 18446744074s', b'ms a 18446744073709551616ms']],
]

# The name of a case, the words, the environment and the input; then the status, the output and the errors.
SEND_CASES = [
    ('the version', ['--version'], {}, b'', 0, b'statsd_send 0.9.0\n', b''),
    *[(f'{name} is {text}', ONE, {name: text}, b'', 2, b'', error_lines(f'{name} wants {WANTED[name]}'.encode()))
      for name, text in MALFORMED],
    ('one metric', ['--print', *ONE], OVERRIDDEN, b'', 0, report_line(ONE_SENT), b''),
    ('tags of the environment', ['--print', '--tag', 'own', *ONE], {
        'DD_ENTITY_ID': 'id', 'DD_TAGS': 'team:shop, env:dev,a:b:c', 'DD_VERSION': '1.2', 'DD_SERVICE': 'shop', 'DD_ENV': 'prod'},
     b'', 0, report_line(b'visits:1|c|#env:prod,service:shop,version:1.2,team:shop,a:b:c,dd.internal.entity_id:id,own,page:home\n'),
     b''),
    ('tags of the environment on lines', ['--print'], {'DD_TAGS': 'a b:c'}, b'c x 1\nc y 2 own\n', 0,
     report_line(b'x:1|c|#a,b:c\ny:2|c|#a,b:c,own\n'), b''),
    *[(f'the defaults of {words}', ['--print', '--tag', 'own', *words, 't'], {'DD_TAGS': 'team:shop,a:b:c', 'DD_ENV': 'prod'}, b'', 0,
       report_line(line + b'|#env:prod,team:shop,a:b:c,own,t\n'), b'')
      for words, line in [(EVENT, b'_e{6,11}:Deploy|version 2.1'), (CHECK, b'_sc|web|2')]],
    ('an event past UDP', ['--to', '127.0.0.1:9', 'event', 'a' * 65507, ''], {}, b'', 2, b'', error_lines(WANTS_LENGTH)),
    ('an event and a service check of a pipe', ['--print'], {}, b'event a b\ncheck a ok\nc a 1\n', 2, report_line(b'a:1|c\n'),
     error_lines(b'line 1: ' + WANTS_KIND, b'line 2: ' + WANTS_KIND, b'2 of 3 lines: cannot read')),
    ('malformed tags, printed', ['--print', *ONE], {'DD_TAGS': 'a|b'}, b'', 2, b'',
     error_lines(f"DD_TAGS wants {WANTED['DD_TAGS']}".encode())),
    ('malformed tags, cleaned', ['--print', '--clean', *ONE], {
        'DD_ENTITY_ID': ',', 'DD_TAGS': 'a|b,k\nl:v|w:x', 'DD_VERSION': 'a\nb', 'DD_SERVICE': 'a|b', 'DD_ENV': 'a,b'}, b'', 0,
     report_line(b'visits:1|c|#env:a_b,service:a_b,version:a_b,a_b,k_l:v_w:x,dd.internal.entity_id:_,page:home\n'), b''),
    *[(f'{name} is {text}, cleaned', ['--print', '--clean', *ONE], {name: text}, b'', 2, b'', error_lines(f'{name} wants {WANTED[name]}'.encode()))
      for name, text in [('DD_TAGS', ':v'), ('DD_TAGS', b'\xff'), ('DD_ENV', b'\xff')]],
    ('cleaned lines', ['--print', '--clean'], {'DD_TAGS': 'url:http://x'}, b'c a:b 1\n g  c,d +1  k|l:v  m,:n:| \ns e a|b\nc f 1\n', 2,
     report_line(b'a_b:1|c|#url:http://x\nc_d:+1|g|#url:http://x,k_l:v,m_:n:_\nf:1|c|#url:http://x\n'),
     error_lines(b'line 3: ' + WANTS_VALUES['s'], b'1 of 4 lines: cannot read')),
    ('strict words', ['--print', '--strict', *ONE], {'DD_TAGS': 'k:v,w'}, b'', 0, report_line(b'visits:1|c|#k:v,w,page:home\n'), b''),
    *[(f'the strict words {words}', ['--strict', '--print', *words], {}, b'', 2, b'', error_lines(why)) for words, why in [
        (['c', 'a:b', '1'], WANTS_NAME), (['c', 'a,b', '1'], WANTS_NAME), (['c', 'a|b', '1'], WANTS_NAME),
        (['c', 'a\nb', '1'], WANTS_NAME), (['c', 'a', '1', 'k,v'], WANTS_TAG),
        (['c', 'a', '1', 'k:v|c'], WANTS_TAG), (['c', 'a', '1', 'k\nv:w'], WANTS_TAG)]],
    ('strict lines', ['--print', '--strict'], {}, b'c a 1\nc b:c 1\nc d 1 k:v:w\nc e 1 k,v\n', 2, report_line(b'a:1|c\nd:1|c|#k:v:w\n'),
     error_lines(b'line 2: ' + WANTS_NAME, b'line 4: ' + WANTS_TAG, b'2 of 4 lines: cannot read')),
    *[(f'{name} is {text}, with {words}', ['--print', *words], {name: text}, b'c a 1', 0, report_line(b'a:1|c|#' + tag + b'\n'), b'')
      for words in ([], ['--strict']) for name, text, tag in [
          ('DD_TAGS', 'url:http://x', b'url:http://x'), ('DD_ENV', 'a:b', b'env:a:b'), ('DD_ENTITY_ID', ':', b'dd.internal.entity_id::')]],
    *[(f'the tag {tag}, with {words}', ['--print', *words, 'c', 'a', '1', tag], {}, b'', 0, report_line(b'a:1|c|#%s\n' % tag.encode()), b'')
      for words in ([], ['--strict']) for tag in ['url:http://x', 'image:nginx:1.25', 'ip:::1', 'k::']],
    ('each option', ['--print', *EACH, 'c', 'a', '1', 't'], {}, b'', 0, report_line(b'p.a:1|c|@0.5|#k:v,w,t|c:id|T7\n'), b''),
    ('options, and words that are none', [
        *'--to host:1 --capacity 9 --print --time 7 --rate 0.50 --flush-every 0 --container id'.split(), '--', 'c', '--help', '-1'],
     {}, b'', 0, report_line(b'--help:-1|c|@0.5|c:id|T7'), b''),
    *[(f'the words {words}', ['--print', *words], {}, b'', 0, report_line(line), b'') for words, line in WRITTEN],
    ('a tag with a space', [*ADDING, 'c', 'visits', '1', 'page:new york'], {}, b'', 0,
     report_line(b'p.visits:1|c|#k:v,page:new york\n'), b''),
    *[(f'to {to}, printed', ['--to', to, '--print', *ONE], {}, b'', 0, report_line(ONE_SENT), b'')
      for to in ['host:1', '127.0.0.1:8125', '[::1]:65535', 'unix:/nowhere', 'unix:host:1', f'unix:{LONGEST_PATH}']],
    *[(f'to {path}', ['--to', f'unix:{path}', *ONE], {}, b'', 1, b'', system_error(f'cannot send to unix:{path} (--to)', number))
      for path, number in [('/nowhere/s', errno.ENOENT), (LONGEST_PATH, errno.ENOENT), ('/dev/null', errno.ECONNREFUSED)]],
    *[(f'the words {words}', words, {}, b'', 2, b'', error_lines(why)) for words, why in UNUSABLE],
    *[(f'the text {text}', ADDING, {}, text, 2 if why else 0, report_line(lines) if lines else b'', why)
      for text, lines, why in SENT_TEXTS],
    *[(f'a host that is none, by {source}', words, environment, b'', 1, b'', error_lines(
        f'cannot find {NO_HOST}:{port} ({source}): failed to lookup address information: Name or service not known'.encode()))
      for source, words, environment, port in [
          ('--to', ['--to', f'{NO_HOST}:1', *ONE], {}, 1), ('DD_AGENT_HOST', ONE, {'DD_AGENT_HOST': NO_HOST}, 8125),
          ('STATSD_HOST', ONE, {'STATSD_HOST': NO_HOST, 'STATSD_PORT': '7'}, 7)]],
    ('an address of IPv4 where only those of IPv6 are wanted', ONE, {'STATSD_HOST': '127.0.0.1', 'STATSD_IPV6': '1'}, b'', 1, b'',
     error_lines(b'cannot find 127.0.0.1:8125 (STATSD_HOST): the host has no address of IPv6, which STATSD_IPV6 asks for')),
    ('a path that is none', ONE, {'DD_DOGSTATSD_URL': 'unix:///nowhere/s'}, b'', 1, b'',
     system_error('cannot send to unix:/nowhere/s (DD_DOGSTATSD_URL)', errno.ENOENT)),
    ('no memory', ['--print', '--capacity', str(2 ** 64 - 1)], {}, b'', 3, b'', error_lines(b'out of memory')),
    ('packets past UDP', ['--to', '127.0.0.1:9', '--capacity', '70000'], {}, b'', 2, b'',
     error_lines(b'--capacity 70000: wants at most 65507 bytes, the longest datagram to 127.0.0.1:9')),
    ('a line past UDP', ['--to', '127.0.0.1:9'], {}, b'c a 1\nc %s 1\nc b 1\n' % (b'a' * 65504), 2, b'',
     error_lines(b'line 2: ' + WANTS_LENGTH, b'1 of 3 lines: cannot read')),
    ('a metric past UDP', ['--to', '127.0.0.1:9', 'c', 'a' * 65504, '1'], {}, b'', 2, b'', error_lines(WANTS_LENGTH)),
    ('a sum past UDP', ['--to', '127.0.0.1:9', '--aggregate', '--capacity', '65507'], {}, b'c %s 5\n' % (b'a' * 65503) * 2, 1, b'',
     error_lines(f'cannot send to 127.0.0.1:9 (--to): {os.strerror(errno.EMSGSIZE)} (os error {errno.EMSGSIZE}): packets are dropped'.encode(),
                 b'1 of 1 packets were lost, with 1 lines, the sums of at most 2 lines of the input')),
    ('lines that can not be read', ADDING, {}, b'\n'.join(text for text, _ in UNSENT), 2, b'',
     error_lines(*[b'line %d: %s' % (number, why) for number, (_, why) in enumerate(UNSENT, 1)],
          b'%d of %d lines: cannot read' % (len(UNSENT), len(UNSENT)))),
    ('no line', ['--print'], {}, b'', 0, b'', b''),
    ('a metric that is left out', ['--print', '--sample', '1e-18', *ONE], {}, b'', 0, b'', b''),
    ('words that are left out', ['--print', '--sample', '1e-18', 'c', 'a', 'x'], {}, b'', 2, b'', error_lines(WANTS_VALUES['c'])),
    ('lines that are left out', ['--print', '--sample', '1e-18'], {}, b'c a 1\nx y\nc b 2', 0, b'', b''),
    ('lines of which none is left out', ['--print', '--sample', '1'], {}, b'c a 1\nx y\n\nc b 2', 2,
     report_line(b'a:1|c|@1\nb:2|c|@1\n'), error_lines(b'line 2: ' + WANTS_WORDS, b'1 of 4 lines: cannot read')),
    ('lines that are added up', ['--print', '--aggregate'], {},
     b'c a 1 k:v\ng load 1\nc a 2 k:v\ng load 3\ns users 7\ns users 7\nms wait 12\nc b 5', 0,
     report_line(b'wait:12|ms\na:3|c|#k:v\nb:5|c\nload:3|g\nusers:7|s\n'), b''),
    ('added lines of several packets', ['--print', '--aggregate', '--capacity', '12'], {}, b'c a 1\nc b 2\nx\nc a 3\nc longer.name 1\n', 2,
     report_line(b'longer.name:1|c') + report_line(b'a:4|c\nb:2|c\n'), error_lines(b'line 3: ' + WANTS_WORDS, b'1 of 5 lines: cannot read')),
    ('a decrement between added gauges', ['--print', '--aggregate'], {}, b'g load 1\nc a 1\ng load 5\ng load -3\ng load 2\nc a 1', 0,
     report_line(b'load:5|g\nload:-3|g\na:2|c\nload:2|g\n'), b''),
    ('a gauge set below 0 between added gauges', ['--print', '--aggregate'], {}, b'g load 1\ng load =3\nc a 1\ng load =-3\ng load 2\nc a 1', 0,
     report_line(b'load:3|g\nload:0|g\nload:-3|g\na:2|c\nload:2|g\n'), b''),
    ('a gauge set below 0, whose two lines fit no packet', ['--print', '--capacity', '12'], {}, b'c a 1\ng b =-5\nc a 2\n', 0,
     report_line(b'a:1|c\n') + report_line(b'b:0|g\nb:-5|g') + report_line(b'a:2|c\n'), b''),
    ('a gauge set below 0, whose two lines fit the next packet', ['--print', '--capacity', '16'], {}, b'c a 1\ng b =-5\n', 0,
     report_line(b'a:1|c\n') + report_line(b'b:0|g\nb:-5|g\n'), b''),
    ('added lines with colons in the text of a tag', ['--print', '--aggregate'], {'DD_TAGS': 'image:nginx:1.25'}, b'c a 1\nc a 2\n', 0,
     report_line(b'a:3|c|#image:nginx:1.25\n'), b''),
    ('lines with a time, which are not added up', ['--print', '--aggregate', '--time', '7'], {}, b'c a 1\nc a 1', 0,
     report_line(b'a:1|c|T7\na:1|c|T7\n'), b''),
    ('lines', ['--print'], {}, b'c visits 1 page:home\nms wait 12,1.25s', 0,
     report_line(ONE_SENT + b'wait:12:1250|ms\n'), b''),
    ('escapes', ['--print'], {}, b'c caf\xc3\xa9 1 k:\\n\nc \x7f 2 \t\n', 0,
     report_line(b'caf\xc3\xa9:1|c|#k:\\n\n\x7f:2|c|#\t\n'), b''),
    ('NUL bytes', ['--print'], {}, b'c a\0 1 \0\n', 0, report_line(b'a\0:1|c|#\0\n'), b''),
    ('a line that is not UTF-8', ['--print'], {}, b'c a 1\nc \xff 1\nc b 2\n', 2, report_line(b'a:1|c\nb:2|c\n'),
     error_lines(b'line 2: ' + WANTS_TEXT, b'1 of 3 lines: cannot read')),
    ('a line of too few words', ['--print'], {}, b'bad line\nc b 2\n', 2, report_line(b'b:2|c\n'),
     error_lines(b'line 1: ' + WANTS_WORDS, b'1 of 2 lines: cannot read')),
    ('three lines with a prefix', ['--print', '--prefix', 'my.service'], {},
     b'c visits 1 page:home beta\ncount visits 2\nms wait 12,250\n', 0,
     report_line(b'my.service.visits:1|c|#page:home,beta\nmy.service.visits:2|c\nmy.service.wait:12:250|ms\n'), b''),
    ('two lines of which nothing is made', ['--print'], {}, b'c a 1\nc\nc b 2\nx y 1\n', 2, report_line(b'a:1|c\nb:2|c\n'),
     error_lines(b'line 2: ' + WANTS_WORDS, b'line 4: ' + WANTS_KIND, b'2 of 4 lines: cannot read')),
    ('a name of 10 MB', ['--print'], {}, b'c %s 1\n' % (b'a' * 10 ** 7), 0, report_line(b'%s:1|c' % (b'a' * 10 ** 7)), b''),
    ('a line of 10 MB', ['--print'], {}, b'c %s\nc b 2\n' % (b'a' * 10 ** 7), 2, report_line(b'b:2|c\n'),
     error_lines(b'line 1: ' + WANTS_WORDS, b'1 of 2 lines: cannot read')),
]
