#!/usr/bin/env python3
"""Measures the work of the program bench and prints the tables of docs/speed.md. With --rust it also measures a program
that does the same work over the Rust crate. Both programs take MODE N [SIZES] and print `check=..` and `ns_per=..`, and
for a queue also `accepted=..` and `drained_ns_per=..`. If a check differs between the programs, that is printed and the
status is 1."""
import argparse, collections, os, re, statistics, subprocess, sys, tempfile
from typing import NamedTuple


class Work(NamedTuple):
    """The work of a line of the tables: a mode, the sizes that all its runs have, the sizes of which each run has one,
    and what a call does."""
    mode: str
    sizes: str
    each: str
    what: str
    timed: int           # the number of calls of a run that is timed
    apart: int = 20000   # two runs whose instructions are compared differ by this many calls
    parts: int = 1       # the figures of a call are divided by this number

    def runs(self):
        return [[*self.sizes.split(), *one] for one in ([size] for size in self.each.split())] or [self.sizes.split()]

    def title(self):
        return f'`{" ".join([self.mode, *self.sizes.split()])}` | ' + self.what.format(', '.join(self.each.split()))


MODES = [
    Work('count', '', '', 'a counter without tags, into a sink that does nothing', 1000000),
    Work('count_tags', '', '', 'a counter with three tags, into a sink that does nothing', 500000),
    Work('options', '', '', 'a counter with two tags, a container, a time and a rate', 500000),
    Work('strict_tags', '', '', 'a counter with three tags of a strict client', 500000),
    Work('histogram4', '', '', 'a histogram of four values', 500000),
    Work('tags', '', '1 3 10 20 50 200', 'a counter with {} tags of its own', 50000),
    Work('dtags', '', '3 20 50', 'a counter with {} default tags', 100000),
    Work('values', '', '10 1000', 'a histogram of {} values', 20000, 2000),
    Work('key', '', '100 1000', 'a counter with a key of {} bytes', 500000),
    Work('keys', '', '1 100 10000', 'a counter by one of {} keys, whose calls make no line', 500000),
    Work('keys_tags', '', '1 100 10000', 'a counter with three tags by one of {} keys', 500000),
    Work('packer', '512 20', '', 'a line of 20 bytes into a packer of 512', 5000000),
    Work('packer', '1432 60', '', 'a line of 60 bytes into a packer of 1432', 5000000),
    Work('packer', '16 20', '', 'a line that passes the capacity', 5000000),
    Work('udp', '512 20', '', 'a line into a buffered UDP sink', 200000),
    Work('udp', '1432', '100 300 400 700 1000 1400', 'a line of {} bytes into a buffered UDP sink', 100000),
    Work('udp', '16 20', '', 'a line alone in a packet', 100000),
    Work('queue', '0 20', '', 'a line into an unbounded queue, with its worker\'s part', 500000),
    Work('queue', '1 20', '', 'a refused line: the queue is nearly always full', 500000),
    Work('queue', '1024 20', '', 'a line into a queue of 1024', 500000),
    Work('callers', '0 20', '1 2 4', 'a line of {} callers into an unbounded queue, with its worker\'s part', 500000),
    Work('callers', '1024 20', '1 2 4', 'a line of {} callers into a queue of 1024', 500000),
    Work('callers', '64 20', '1 2 4', 'a line of {} callers into a queue of 64', 200000),
    Work('callers', '0 600', '1 4', 'a line of 600 bytes of {} callers into an unbounded queue', 200000),
    Work('callers', '0 1200', '1 4', 'a line of 1200 bytes of {} callers into an unbounded queue', 200000),
    Work('refused', '512 20', '1 4 8', 'a line of {} callers that a full queue refuses, while its worker sleeps', 500000),
    Work('udp_callers', '512 20', '1 2 4', 'a line of {} callers into a buffered UDP sink', 200000),
    Work('service', '0', '1 2 4', 'a counter of {} callers, through an unbounded queue into a buffered UDP sink', 200000),
    Work('service', '1024', '1 2 4', 'a counter of {} callers, through a queue of 1024 into a buffered UDP sink', 200000),
    Work('service', '64', '1 2 4', 'a counter of {} callers, through a queue of 64 into a buffered UDP sink', 200000),
    Work('read', '512 20', '', 'a byte of a packet of counters of 20 bytes', 20000, 500, 24 * 21),
    Work('read', '1432 20', '', 'a byte of a packet of counters of 20 bytes', 10000, 500, 68 * 21),
    Work('read', '1432 60', '', 'a byte of a packet of counters of 60 bytes', 20000, 500, 23 * 61),
    Work('read_full', '512 93', '', 'a byte of a packet of lines with every field', 20000, 500, 5 * 94),
    Work('read_full', '1432 93', '', 'a byte of a packet of lines with every field', 10000, 500, 15 * 94),
    Work('read_arena', '512 20', '', 'a byte of counters of 20 bytes, read into an arena', 20000, 500, 24 * 21),
    Work('read_arena', '1432 20', '', 'a byte of counters of 20 bytes, read into an arena', 10000, 500, 68 * 21),
    Work('read_arena', '1432 60', '', 'a byte of counters of 60 bytes, read into an arena', 20000, 500, 23 * 61),
    Work('read_full_arena', '512 93', '', 'a byte of lines with every field, read into an arena', 20000, 500, 5 * 94),
    Work('read_full_arena', '1432 93', '', 'a byte of lines with every field, read into an arena', 10000, 500, 15 * 94),
    Work('cut', '512 20', '', 'a byte of counters of 20 bytes, cut as lines of any client', 20000, 500, 24 * 21),
    Work('cut_full', '512 93', '', 'a byte of lines with every field, cut as lines of any client', 20000, 500, 5 * 94),
]
HERE_ALONE = ('strict_tags', 'keys', 'keys_tags', 'read', 'read_full', 'read_arena', 'read_full_arena', 'cut', 'cut_full')   # the Rust crate doesn't do this
PACKED = ('packer', 'udp', 'udp_callers')
QUEUED = ('queue', 'callers', 'service')


class Programs:
    """The programs by their names, the program bench last, and the checks that each kind of run printed."""

    def __init__(self, this, rust):
        self.paths = {**({'Rust': rust} if rust else {}), 'This': this}
        self.checks = collections.defaultdict(set)

    def names(self, work):
        return [name for name in self.paths if name == 'This' or work.mode not in HERE_ALONE]

    def run(self, name, mode, calls, sizes, before=()):
        """Runs a program, and returns each word of the form `name=value` that it printed, and all that it wrote."""
        words = [mode, str(calls), *sizes]
        ran = subprocess.run([*before, self.paths[name], *words], capture_output=True, text=True)
        printed = dict(re.findall(r'(?<!\S)(\w+)=(\S+)', ran.stdout + '\n' + ran.stderr))
        if ran.returncode or 'check' not in printed:
            sys.exit(f'{name}: {" ".join(words)} ended with {ran.returncode}: {ran.stderr:.400}')
        self.checks[' '.join(words)].add(printed['check'])
        return printed, ran.stderr

    def differences(self):
        return [f'{words}: the checks are {", ".join(sorted(found))}' for words, found in self.checks.items() if len(found) > 1]


def lines_together(mode, sizes):
    """Returns how many lines fill a packet, so that runs end with a whole packet, and 1 if lines are not packed."""
    return max(1, int(sizes[0]) // (int(sizes[1]) + 1)) if mode in PACKED else 1


def count_of_a_call(programs, name, work, sizes, apart, before, pattern):
    """Returns what valgrind counts for a call. The count is the difference of two runs, so it leaves out the start and
    the end of the program."""
    together, counts = lines_together(work.mode, sizes), []
    two = [-(-calls // together) * together for calls in (apart // 10, apart // 10 + apart)]
    for calls in two:
        _, wrote = programs.run(name, work.mode, calls, sizes, ('valgrind', *before))
        counts.append(int(re.search(pattern, wrote).group(1).replace(',', '')))
    return (counts[1] - counts[0]) / (two[1] - two[0]) / work.parts


def instructions(programs, name, work, sizes):
    with tempfile.TemporaryDirectory() as room:
        before = ('--tool=callgrind', f'--callgrind-out-file={room}/out')
        return count_of_a_call(programs, name, work, sizes, work.apart, before, r'Collected : (\d+)')


def requests(programs, name, work, sizes):
    return count_of_a_call(programs, name, work, sizes, min(work.apart, 2000), ('--tool=memcheck',), r'total heap usage: ([\d,]+) allocs')


def row(work, columns):
    """Returns a line of a table, whose cells have the figures of the runs of the work. A missing figure is left out."""
    return ' | '.join(['| ' + work.title(), *(', '.join(one for one in column if one) for column in columns)]) + ' |'


def ratios(found, digits=2):
    return [f'{this / rust:.{digits}f}' if rust else '' for rust, this in found]


def print_counts(programs, works, count, title, digits):
    """Prints a table of what one count gives for each work."""
    print(f'\n| Mode | What a call does | {title}, Rust | {title}, this | Ratio |\n|---|---|---|---|---|')
    for work in works:
        found = []
        for sizes in work.runs():
            values = {name: count(programs, name, work, sizes) for name in programs.names(work)}
            found.append((values.get('Rust'), values['This']))
        texts = [[f'{value:.{digits}f}' if value is not None else '' for value in column] for column in zip(*found)]
        print(row(work, [*texts, ratios(found)]), flush=True)


def spread(values):
    return f'{statistics.median(values):.1f} ({min(values):.1f}..{max(values):.1f})' if values else ''


def times_of(programs, work, sizes, runs):
    """Runs the programs in turns, and returns three lists for each: the nanoseconds of a call, the lines that went
    through the queue in a millisecond, and the lines of a hundred that were accepted."""
    found = collections.defaultdict(lambda: ([], [], []))
    for name in programs.names(work) * runs:
        printed, _ = programs.run(name, work.mode, work.timed, sizes)
        times, lines, accepted = found[name]
        times.append(float(printed['ns_per']) / work.parts)
        if work.mode in QUEUED:
            accepted.append(100 * int(printed['accepted']) / work.timed)
            lines.append(int(printed['accepted']) * 1e6 / (float(printed['drained_ns_per']) * work.timed))
    return [found['Rust'], found['This']]


def median(values):
    return statistics.median(values) if values else None


def print_times(programs, works, runs):
    """Prints the tables of times, and for queues those of lines taken and accepted: medians, least and greatest."""
    all_runs = [(work, [times_of(programs, work, sizes, runs) for sizes in work.runs()]) for work in works]
    queued = [work for work in works if work.mode in QUEUED]
    for place, title, some in [(0, 'Nanoseconds of a call', works), (1, 'Lines got through in a millisecond', queued),
                               (2, 'Accepted of a hundred', queued)]:
        if some:
            print(f'\n| Mode | What a call does | {title}, Rust | This | Ratio |\n|---|---|---|---|---|')
        for work, found in all_runs:
            if work in some:
                pairs = [(rust[place], this[place]) for rust, this in found]
                middles = [(median(rust), median(this)) for rust, this in pairs]
                print(row(work, [[spread(values) for values in column] for column in zip(*pairs)] + [ratios(middles)]))


def main():
    options = argparse.ArgumentParser(description=__doc__)
    options.add_argument('--this', required=True, help='the program bench')
    options.add_argument('--rust', help='the program over the Rust crate')
    options.add_argument('--modes', nargs='+', choices=sorted({work.mode for work in MODES}), help='only these modes')
    options.add_argument('--instructions', action='store_true', help='count the instructions of a call by callgrind')
    options.add_argument('--requests', action='store_true', help='count the requests for memory of a call by memcheck')
    options.add_argument('--times', action='store_true', help='time runs in turns; without these three options all three are done')
    options.add_argument('--runs', type=int, default=11, help='how often each program is timed')
    given = options.parse_args()
    programs = Programs(given.this, given.rust)
    works = [work for work in MODES if not given.modes or work.mode in given.modes]
    every = not (given.instructions or given.requests or given.times)
    if given.instructions or every:
        print_counts(programs, works, instructions, 'Instructions', 1)
    if given.requests or every:
        print_counts(programs, works, requests, 'Requests', 2)
    if given.times or every:
        print_times(programs, works, given.runs)
    for difference in programs.differences():
        print(difference, file=sys.stderr)
    return 1 if programs.differences() else 0


sys.exit(main())
