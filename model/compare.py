"""Compares the program `statsd_schedule` with the model of schedule.py, over the worked rows of crates/test_scripts and over
scripts that are made from seeds, some of them again with each answer of the writer refused in turn. Then it plants each
fault of the model in turn, and looks whether the comparison finds it."""
import os, random, subprocess, time
from concurrent.futures import ThreadPoolExecutor

from schedule import FAULTS, UNUSABLE, Run

SCRIPTS = 2000  # with an aggregator, and as many without one
SECONDS = 60  # of one run of the program
KEYS = ['a', 'b', 'c', 'd', 'a', 'b', 'a:1', 'a:1|c|#x', 'n\\nm', 'k,l', '\u00e9', '\\e', 'k' * 508]
VALUES = [
    'c i:1', 'c i:2', 'c i:-3', 'c i:0', 'c i:9223372036854775807', 'c i:-9223372036854775808', 'c u:18446744073709551615',
    'g u:1', 'g u:2', 'g x:5/1', 'g x:-5/1', 'g x:-1/0', 's i:1', 's i:2', 's i:-1', 'ms u:5', 'ms U:1,2', 'ms U:', 'm u:3', 'h u:1',
    'h X:1/1,2/0', 'd u:4',
]
OPTIONS = ['', '', '', '', '', ' tag x y', ' tagvalue t', ' rate 5/1', ' container id', ' time 7', ' tag x: y']
SETTINGS = [
    'prefix p', 'capacity 0', 'capacity 6', 'capacity 9', 'capacity 16', 'capacity 24', 'capacity 40', 'ending \\e', 'ending ab',
    'queue 1', 'queue 3', 'policy drop', 'writer refuse', 'writer whole refuse whole refuse', 'writer refuse refuse whole refuse',
    'tag h w', 'container def', 'strict', 'writer short:3 whole short:0',
]
STEPS = ['take', 'hand', 'hand', 'take', 'flush', 'stop']

# The words of scripts without an aggregator. They have separators, escapes, empty texts, numbers at their limits, and lines
# about as long as a capacity.
TEXTS = ['\\e', 'a', 'some.key', 'k\\n', 'a|b', 'x\\sy', 'p..', '#,:|@', '\\\\', '\u00e9', '\t\r\x7f', 'a_long_text' * 7]
PLAIN_VALUES = [
    'c i:0', 'c i:-9223372036854775808', 'c u:18446744073709551615', 's i:-12', 's i:7', 'ms u:5', 'ms U:1,2,3', 'ms U:',
    'ms t:1/500000', 'ms t:1/500001', 'ms T:0/999999,18446744073709551/0', 'ms t:18446744073709552/0', 'g u:8', 'g x:-50/2',
    'g x:-170141183460469231731687303715884105728/30', 'm u:9', 'h u:1', 'h U:4,5', 'h x:1/30', 'h X:5/1,-5/1,0/3', 'h t:0/10',
    'h T:18446744073/709551615,18446744073/709551616', 'd u:3', 'd U:6', 'd x:120/1', 'd X:',
]
PLAIN_OPTIONS = [
    '', '', '', ' tag a b', ' tagvalue t', ' tag \\e \\e', ' container id', ' container \\e', ' time 7', ' time 0', ' rate 5/1',
    ' rate -1/0', ' tag a: b', ' tag a b:c', ' tag a b,c', ' tagvalue \\n', ' container x|y', ' container , container id',
    ' tag k v tagvalue w container x time 9 rate 25/2', ' time 1 time 2',
]
PLAIN_SETTINGS = [
    'prefix p', 'prefix a..', 'prefix ...', 'tag h w', 'tag u h://x', 'tagvalue prod', 'container def', 'capacity 0', 'capacity 4', 'capacity 6',
    'capacity 9', 'capacity 16', 'capacity 24', 'capacity 40', 'ending \\e', 'ending ab', 'ending \\n\\n', 'queue 0', 'queue 1',
    'queue 2', 'queue 3', 'policy drop', 'policy drop', 'policy refuse', 'writer refuse', 'writer whole refuse whole refuse',
    'writer short:3', 'writer short:0 whole short:5 refuse', 'writer short:1 refuse short:2',
]
HOSTILE_SETTINGS = ['prefix a:b', 'tag a: b', 'tag a, b', 'tag a b|c', 'tagvalue :', 'container x\\ny']


def summed_script(seed):
    """Returns a script of at most 60 steps. Each eighth one has no aggregator. Half of them use few values, so that lines
    often have the same context."""
    made = random.Random(seed)
    values = VALUES if made.random() < 0.5 else made.sample(VALUES, 3)
    lines = [f'aggregate {made.choice([1, 1, 2, 2, 3, 4, 9])}'] if seed % 8 else []
    lines += [made.choice(SETTINGS) for _ in range(made.randrange(5))]
    for _ in range(made.randrange(30)):
        kind, value = made.choice(values).split(' ')
        lines.append(f'call {kind} {made.choice(KEYS)} {value}{made.choice(OPTIONS)}')
        lines += ['take', 'hand'] if made.random() < 0.7 else [made.choice(STEPS)]
        lines += ['flush'] if made.random() < 0.1 else []
    return '\n'.join(lines) + '\n'


def plain_script(seed):
    """Returns a script of at most 60 steps, without an aggregator. Each fourth one has a small queue that drops its oldest
    line, unless a later setting says otherwise. Each third one is strict, and each eighth one has a setting with a
    separator."""
    made = random.Random(-1 - seed)
    lines = [f'queue {made.randrange(1, 4)}', 'policy drop'] if seed % 4 == 0 else []
    lines += ['strict'] if seed % 3 == 0 else []
    lines += [made.choice(HOSTILE_SETTINGS)] if made.random() < 0.125 else []
    lines += [made.choice(PLAIN_SETTINGS) for _ in range(made.randrange(6))]
    handed = made.random()
    for _ in range(made.randrange(20)):
        kind, value = made.choice(PLAIN_VALUES).split(' ')
        lines.append(f'call {kind} {made.choice(TEXTS)} {value}{made.choice(PLAIN_OPTIONS)}{made.choice(PLAIN_OPTIONS)}')
        lines += ['take', 'hand'] if made.random() < handed else [made.choice(STEPS)] if made.random() < 0.5 else []
    return '\n'.join(lines) + '\n'


def turns_of(script):
    """Yields the script once for each packet that its writer is offered. In each of them that packet is refused."""
    run = Run(script)
    run.report()
    answers = run.settings.get('writer', []) + ['whole'] * run.packer.offers
    others = [line for line in script.split('\n') if not line.startswith('writer ')]
    for place in range(run.packer.offers):
        yield '\n'.join([' '.join(['writer', *answers[:place], 'refuse', *answers[place + 1:]]), *others])


def rows(folder):
    """Yields the script of each worked row that has a report, with what the program has to give for it."""
    for name in contents(f'{folder}/index').decode().split():
        if not os.path.exists(f'{folder}/{name}.status'):
            yield contents(f'{folder}/{name}.in').decode(), (0, contents(f'{folder}/{name}.out'), b'')


def contents(path):
    with open(path, 'rb') as file:
        return file.read()


def all_scripts(folder):
    """Returns the scripts that are compared."""
    worked = [script for script, _ in rows(folder)]
    plain, summed = ([make(seed) for seed in range(SCRIPTS)] for make in (plain_script, summed_script))
    turned = [turn for script in worked + plain + summed[:SCRIPTS // 8] for turn in turns_of(script)]
    return worked + plain + summed + turned


def outcome_of(program, script):
    """Returns the exit status of the program for a script, its output and its errors."""
    run = subprocess.run([program], input=script.encode(), stdout=subprocess.PIPE, stderr=subprocess.PIPE, timeout=SECONDS)
    return run.returncode, run.stdout, run.stderr


def judge(scripts, outcomes):
    """Prints how many outcomes differ from what the model says, and how many planted faults were found. Returns whether none
    differs, and all were."""
    runs = [Run(script) for script in scripts]
    wanted = [run.outcome() for run in runs]
    differing = [script for script, due, outcome in zip(scripts, wanted, outcomes) if due != outcome]
    for script in differing[:3]:
        print(f'this script has another outcome than the model says:\n{script}')
    missed = [fault for fault in FAULTS if all(Run(script, fault).outcome() == due for script, due in zip(scripts, wanted))]
    for fault in missed:
        print(f'the fault is not found: {fault}')
    used = {rule: sum(rule in run.aggregator.seen for run in runs if run.aggregator) for rule in ('full', 'overflow', 'sign', 'other')}
    print(f'the model of schedules: {len(differing)} of {len(scripts)} scripts differ, {len(FAULTS) - len(missed)} of {len(FAULTS)} '
          f'faults found; a table was full in {used["full"]} scripts, a sum passed 64 bits in {used["overflow"]}, a gauge had a sign '
          f'in {used["sign"]}, a line went on in {used["other"]}, a packet was refused in {sum(bool(run.packer.refused) for run in runs)}, '
          f'{wanted.count(UNUSABLE)} were unusable')
    return not differing and not missed


def compare(program, folder):
    """Compares the program with the model, and the model with the worked rows in the folder. Returns whether all is right."""
    if not os.path.exists(program):
        print(f'the model of schedules: not compared, because {program} is not built')
        return False
    began = time.monotonic()
    wrong = [script for script, due in rows(folder) if Run(script).outcome() != due]
    for script in wrong:
        print(f'the model has another report of a worked row:\n{script}')
    scripts = all_scripts(folder)
    with ThreadPoolExecutor(2) as pool:
        outcomes = list(pool.map(lambda script: outcome_of(program, script), scripts))
    is_right = judge(scripts, outcomes)
    print(f'the model of schedules: {time.monotonic() - began:.1f} seconds')
    return is_right and not wrong
