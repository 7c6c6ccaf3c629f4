"""The tests of the page about the shell: each of its blocks is run, also the unit and the crontab."""
import os, re, signal, subprocess, tempfile, time

from processes import descendants
from running import LONGEST, bound, contents, next_datagram, result_of

WAIT = 0.5  # seconds for the answer to a line of a log
PAGE = 'docs/shell.md'
LOGGED = b'127.0.0.1 - - [27/Nov/2026:12:00:00 +0000] "GET / HTTP/1.1" 200 612\n'
STOPPED = 100  # lines of a log, with another status, before the commands are stopped


def page_cases(program):
    """Yields a run of each block of the page about the shell: what it prints, or what it sends for a line of a log."""
    ending = '.by-rattle' if program.endswith('.by-rattle') else ''
    text = contents(PAGE, b'').decode()
    for code, wanted in re.findall(r'^```sh\n(.*?)^```\n(?:\n```text\n(.*?)^```$)?', text, re.M | re.S):
        with tempfile.TemporaryDirectory() as room:
            others = with_programs(room, ending)
            if wanted:
                run = result_of(['bash', '-c', code], b'', environment=others, folder=room)
                yield code, run[:2], (0, wanted.encode())
            else:
                yield from log_cases(code, room, others)
        if 'trap' in code:
            with tempfile.TemporaryDirectory() as room:
                yield f'stopped: {code}', sent_at_stop(code, room, with_programs(room, ending)), STOPPED
    for code in re.findall(r'^ExecStart=((?:.*\\\n)*.*)$', text, re.M):
        with tempfile.TemporaryDirectory() as room:
            yield from log_cases(code, room, with_programs(room, ending))
        with tempfile.TemporaryDirectory() as room:
            yield f'stopped: {code}', sent_at_stop(code, room, with_programs(room, ending)), STOPPED
    for code in re.findall(r'^```crontab\n(.*?)^```$', text, re.M | re.S):
        yield from crontab_cases(code, ending)


def crontab_cases(code, ending):
    """Yields what the agent gets from the jobs of a crontab, whose program `backup` ends with 3. Cron ends a command at a `%`
    without a backslash."""
    for job in re.findall(r'^(?:\S+ ){5}(.*)$', code, re.M):
        command = re.split(r'(?<!\\)%', job)[0].replace('\\%', '%')
        with tempfile.TemporaryDirectory() as room:
            others = with_programs(room, ending)
            with open(f'{room}/backup', 'w') as backup:
                backup.write('#!/bin/sh\nexit 3\n')
            os.chmod(f'{room}/backup', 0o755)
            with bound(f'{room}/agent') as server:
                run = result_of(['sh', '-c', command], b'', environment=others, folder=room)
                got = next_datagram(server) + next_datagram(server)
            yield f'{job}: {got}', (run, bool(re.fullmatch(rb'backup\.failed:3\|g\nbackup\.took:\d+\|ms\n', got))), ((0, b'', b''), True)


def with_programs(room, ending):
    """Puts the programs into a folder, and returns the variables with which a shell finds them and an agent there."""
    for name in ('statsd_send', 'statsd_watch', 'statsd_listen'):
        os.symlink(os.path.abspath(f'crates/{name}/out/{name}{ending}'), f'{room}/{name}')
    return {'PATH': f"{room}:{os.environ['PATH']}", 'DD_DOGSTATSD_URL': f'unix://{room}/agent'}


def log_cases(code, room, environment):
    """Yields what the agent gets from these commands while they still wait for more of a log: the hits of one line, or on a busy
    machine of a few."""
    with bound(f'{room}/agent') as server, started(code, room, environment) as run:
        datagram = first_of_log(server, room)
        os.killpg(run.pid, signal.SIGKILL)
    yield f'{code}: {datagram}', bool(re.fullmatch(rb'(hits:\d+\|c\|#code:200\n)+', datagram)), True


def sent_at_stop(code, room, environment):
    """Returns how many lines of a log the agent gets, if all commands are stopped when `statsd_send` has read their metrics."""
    with bound(f'{room}/agent') as server, started(code, room, environment) as run:
        first_of_log(server, room)
        sender, wanted = sender_below(run.pid), STOPPED * len(b'c hits 1 code:404\n')
        before = settled(sender, 1)
        add_to_log(room, LOGGED.replace(b' 200 ', b' 404 ') * STOPPED)
        settled(sender, before + wanted)
        os.killpg(run.pid, signal.SIGTERM)
        sent, ends = 0, time.monotonic() + LONGEST
        while sent < STOPPED and time.monotonic() < ends and os.path.exists(f'/proc/{sender}'):
            sent += hits_of(next_datagram(server))
        return sent + sum(map(hits_of, iter(lambda: next_datagram(server), b'no datagram')))


def started(code, room, environment):
    """Starts commands beside an empty log, as a group of processes of its own."""
    open(f'{room}/access.log', 'w').close()
    how = {'cwd': room, 'env': {**os.environ, **environment}, 'start_new_session': True}
    return subprocess.Popen(['bash', '-c', code], **how)


def add_to_log(room, lines):
    with open(f'{room}/access.log', 'ab') as log:
        log.write(lines)


def first_of_log(server, room):
    """Adds lines to a log until the agent gets a datagram, and returns that one."""
    server.settimeout(WAIT)
    datagram, ends = b'no datagram', time.monotonic() + LONGEST
    while datagram == b'no datagram' and time.monotonic() < ends:
        add_to_log(room, LOGGED)
        datagram = next_datagram(server)
    return datagram


def sender_below(root):
    """Returns the number of the process of `statsd_send` below this one."""
    for number, _, _ in descendants(root):
        if contents(f'/proc/{number}/comm', b'') == b'statsd_send\n':
            return number
    return root


def bytes_read(number):
    """Returns how many bytes a process has read."""
    return int(re.search(rb'rchar: (\d+)', contents(f'/proc/{number}/io', b'rchar: 0'))[1])


def settled(number, least):
    """Waits until a process has read so many bytes, and no more for a second, and returns how many it has read."""
    read, same, ends = 0, 0, time.monotonic() + LONGEST
    while (read < least or same < 2) and time.monotonic() < ends:
        time.sleep(WAIT)
        last, read = read, bytes_read(number)
        same = same + 1 if read == last else 0
    return read


def hits_of(datagram):
    """Returns how many hits a datagram counts for the lines that are added to the log before the stop."""
    return sum(map(int, re.findall(rb'hits:(\d+)\|c\|#code:404\n', datagram)))
