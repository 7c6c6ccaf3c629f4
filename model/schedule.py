"""A model of `statsd_schedule`: what it prints for a script that it can read, worked out from docs/statsd_schedule.md. It shares no
code with the program. Texts are strings, and packets are bytes."""
import re
from collections import OrderedDict

MOST_BYTES = 512  # of a line that an aggregator holds
STEPS = ('call', 'take', 'hand', 'flush', 'stop')
UNUSABLE = 2, b'', b'statsd_schedule: settings: separator in a text\n'
NUMBER = re.compile(r'[+-]?(?:\d+\.?\d*|\.\d+)(?:[eE][+-]?\d+)?', re.A)
LINE = re.compile(r'(?P<name>[^:|\n]*):(?P<values>[^|\n]*)(?P<rest>\|(?P<kind>c|ms|g|m|h|s|d)(?P<fields>(?:\|[^\n]*)?))')


class Refused(Exception):
    """A call or a packet was refused. The text of the error says why."""


class Packer:
    """A packer over a log of packets. With a fault one of its rules is wrong."""

    def __init__(self, capacity, ending, answers, fault=None):
        self.capacity, self.ending, self.answers, self.fault = capacity, ending, list(answers), fault
        self.packets, self.held, self.cut, self.refused, self.offers = [], b'', [], [], 0

    def offer(self, packet):
        """Offers a packet to the log, and returns how many of its bytes the log takes."""
        self.offers += 1
        answer, _, count = (self.answers.pop(0) if self.answers else 'whole').partition(':')
        if answer == 'refuse':
            self.refused.append(packet)
            raise Refused('packet refused')
        taken = packet[:int(count)] if answer == 'short' and self.fault != 'a short count is ignored' else packet
        self.packets.append(taken)
        return len(taken)

    def flush(self):
        while self.held:
            count = self.offer(self.held)
            if count == 0:
                raise Refused('nothing written')
            self.held = self.held[count:] if self.fault != 'what a short count leaves is lost' else b''

    def write(self, line):
        """Packs a line, and returns how many of its bytes were taken."""
        frame = line.encode() + self.ending
        if self.held and len(self.held + frame) <= self.capacity:
            self.held += frame
            self.cut[-1] += 1
            return len(line.encode())
        self.flush()
        if len(frame) > self.capacity:
            count = self.offer(line.encode())
        else:
            self.held, count = frame, len(line.encode())
        self.cut.append(1)
        return count


class Aggregator:
    """Counters, gauges and members of sets, held before a packer. With a fault one of its rules is wrong."""

    def __init__(self, most, packer, fault=None):
        self.most, self.packer, self.fault = most, packer, fault
        self.counters, self.gauges, self.members = OrderedDict(), OrderedDict(), OrderedDict()
        self.due = [0, 0, 0]  # how many of each table the last flush left
        self.seen = set()  # which of its rules were used

    def send_oldest(self, table):
        """Hands on the oldest line, and then forgets it."""
        key = next(reversed(table) if self.fault == 'the newest context is handed on' else iter(table))
        if self.fault == 'a refused line is forgotten':
            self.packer.write(table.pop(key)[1])
            return
        self.packer.write(table[key][1])
        del table[key]

    def hold(self, table, key, value, line):
        """Holds a value and the line that says it, in the place of an earlier one. A gauge becomes the newest one."""
        if key not in table and len(table) == self.most and self.fault != 'a full table grows':
            self.seen.add('full')
            self.send_oldest(table)
        table[key] = value, line
        if table is self.gauges and self.fault != 'a gauge that is set again keeps its place':
            table.move_to_end(key)
        if table is self.counters and self.fault == 'a counter that is raised again loses its place':
            table.move_to_end(key)

    def send_gauges(self):
        while self.gauges:
            self.send_oldest(self.gauges)

    def add_counter(self, name, by, rest):
        key, total = (name, rest), by
        if key in self.counters:
            total += self.counters[key][0]
            if not -2 ** 63 <= total < 2 ** 63:
                self.seen.add('overflow')
                self.packer.write(self.counters[key][1])
                total = by
        self.hold(self.counters, key, total, f'{name}:{total}{rest}')

    def add(self, line):
        said = LINE.fullmatch(line)
        if said is None or not is_added(said):
            self.seen.add('other')
            if '|g' in line and self.gauges and self.fault != 'a line that may set a gauge overtakes those that are held':
                self.seen.add('unclear')
                self.send_gauges()
            self.packer.write(line)
            return
        is_long = len(line.encode()) > MOST_BYTES
        key = said['name'], said['rest']
        if said['kind'] == 'c' and not is_long:
            self.add_counter(said['name'], whole_number(said['values']), said['rest'])
        elif said['kind'] == 's' and not is_long:
            if line not in self.members:
                self.hold(self.members, line, None, line)
            self.seen.add('member')
        elif said['kind'] == 'g' and not is_long and said['values'][:1].isdigit():
            if self.fault != 'the first value of a gauge is kept' or key not in self.gauges:
                self.hold(self.gauges, key, None, line)
        else:
            if said['kind'] == 'g' and self.fault != 'a gauge with a sign overtakes those that are held':
                self.seen.add('sign')
                self.send_gauges()
            self.packer.write(line)

    def tables(self):
        return [self.members, self.gauges, self.counters] if self.fault == 'members go first' else [self.counters, self.gauges, self.members]

    def send_due(self):
        for at, table in enumerate(self.tables()):
            while self.due[at]:
                if table:
                    self.send_oldest(table)
                self.due[at] -= 1

    def flush(self):
        if any(self.due):
            self.seen.add('due')
        if self.fault != 'what a refused flush left has no turn':
            self.send_due()
        self.due = [len(table) for table in self.tables()]
        self.send_due()

    def lines(self):
        held = [[line for _, line in table.values()] for table in self.tables()]
        first = [line for lines, due in zip(held, self.due) for line in lines[:due]]
        return first + [line for lines, due in zip(held, self.due) for line in lines[due:]]


FAULTS = (
    'the newest context is handed on', 'a refused line is forgotten', 'a full table grows',
    'a gauge that is set again keeps its place', 'a counter that is raised again loses its place',
    'the first value of a gauge is kept', 'a gauge with a sign overtakes those that are held',
    'a line that may set a gauge overtakes those that are held', 'what a refused flush left has no turn',
    'members go first', 'a short count is ignored', 'what a short count leaves is lost', 'a default tag is left out',
    'a default tag stands last', 'the default container counts', 'a duration is rounded', 'a duration past 64 bits wraps',
    'a strict script takes a colon', 'a colon after a key is refused', 'a separator is refused before a value',
    'a strict script has any settings',
)


def number(text):
    """Returns the mantissa and the places of the number that a text says, in any spelling, if 128 bits and 30 places hold it."""
    if not NUMBER.fullmatch(text):
        return None
    front, _, exponent = text.lower().partition('e')
    whole, _, fraction = front.partition('.')
    digits = (whole.lstrip('+-') + fraction).rstrip('0')
    places = len(fraction) - int(exponent or 0) - len(whole.lstrip('+-') + fraction) + len(digits)
    if not -2 ** 31 <= int(exponent or 0) < 2 ** 31:
        return None
    if not digits.strip('0'):
        return 0, 0
    if places < -38:
        return None
    mantissa = int(digits) * 10 ** max(-places, 0) * (-1 if front.startswith('-') else 1)
    return (mantissa, max(places, 0)) if -2 ** 127 <= mantissa < 2 ** 127 and places <= 30 else None


def whole_number(text):
    """Returns the whole number of 64 bits that a text says, if it says one."""
    mantissa, places = number(text) or (0, 1)
    return mantissa if places == 0 and -2 ** 63 <= mantissa < 2 ** 63 else None


def is_added(said):
    """Returns whether a line is that of a counter, a gauge or a set that is added to others. One with a time is not, and
    neither is one whose name begins as that of an event, nor a counter or a gauge with several values."""
    if '|T' in said['fields'] or said['name'].startswith('_e{') and ',' in said['name']:
        return False
    if said['kind'] == 'c':
        return whole_number(said['values']) is not None
    return said['kind'] == 's' or said['kind'] == 'g' and number(said['values']) is not None


def text_of(word):
    """Returns the text that a word of a script stands for."""
    return re.sub(r'\\(.)', lambda pair: {'n': '\n', 's': ' ', 'e': '', '\\': '\\'}[pair[1]], word)


def decimal(word):
    """Returns the text of a number that a script writes as M/P, in lowest form."""
    mantissa, places = map(int, word.split('/'))
    digits = str(abs(mantissa)).rjust(places + 1, '0')
    whole, fraction = digits[:len(digits) - places], digits[len(digits) - places:].rstrip('0')
    return '-' * (mantissa < 0) + whole + ('.' + fraction if fraction else '')


def duration(kind, word, fault):
    """Returns the text of a duration that a script writes as S/N: the milliseconds of a timer, else the nanoseconds."""
    seconds, nanoseconds = map(int, word.split('/'))
    unit = 10 ** 6 if kind == 'ms' else 1
    count = (seconds * 10 ** 9 + nanoseconds + (unit // 2 if fault == 'a duration is rounded' else 0)) // unit
    if count >= 2 ** 64 and fault != 'a duration past 64 bits wraps':
        raise Refused('u64 overflow')
    return str(count % 2 ** 64)


def values_of(kind, word, fault):
    """Returns the text of the values of a call."""
    form, items = word.split(':')
    text_of_item = {'x': decimal, 't': lambda item: duration(kind, item, fault)}.get(form.lower(), str)
    return ':'.join(map(text_of_item, items.split(',') if items else []))


def has_separator(texts, tags, fault=None):
    """Returns whether a text, or a part of a tag, has a character that separates the parts of a line or of a packet. The
    first colon of a tag ends its key, so the text behind a key may have colons."""
    texts = texts + [tag[0] for tag in tags]
    separators = ',|\n' if fault == 'a strict script takes a colon' else ':,|\n'
    after_a_key = ':,|\n' if fault == 'a colon after a key is refused' else ',|\n'
    return (any(separator in text for text in texts for separator in separators)
            or any(separator in text for _, *behind in tags for text in behind for separator in after_a_key))


class Client:
    """What the settings of a script give each call. With a fault one of its rules is wrong."""

    def __init__(self, lines, fault):
        self.prefix, self.tags, self.container, self.is_strict, self.fault = '', [], None, False, fault
        for name, *words in lines:
            texts = [text_of(word) for word in words]
            if name == 'prefix':
                self.prefix = texts[0]
            elif name in ('tag', 'tagvalue'):
                self.tags.append(texts)
            elif name == 'container':
                self.container = texts[0]
            elif name == 'strict':
                self.is_strict = True

    def is_usable(self):
        """Returns whether no setting has a separator, if the script is strict."""
        texts = [self.prefix, self.container or '']
        return not self.is_strict or not has_separator(texts, self.tags) or self.fault == 'a strict script has any settings'

    def line_of(self, words):
        """Returns the line of a call. A value that doesn't fit is refused before a separator."""
        kind, key, value, *options = words
        tags, container, rate, time, texts = [], None, '', '', [text_of(key)]
        while options:
            name, text = options.pop(0), options.pop(0)
            if name in ('tag', 'tagvalue'):
                tags.append([text_of(text), text_of(options.pop(0))] if name == 'tag' else [text_of(text)])
            elif name == 'container':
                container = text_of(text)
                texts.append(container)
            elif name == 'rate':
                rate = '|@' + decimal(text)
            else:
                time = '|T' + text
        if self.fault == 'a separator is refused before a value':
            self.refuse_separators(texts, tags)
        values = values_of(kind, value, self.fault)
        self.refuse_separators(texts, tags)
        tags, container = self.with_defaults(tags, container)
        return ''.join([self.prefix.rstrip('.') + '.' if self.prefix else '', texts[0], ':', values, '|', kind, rate,
                        '|#' + ','.join(map(':'.join, tags)) if tags else '', '' if container is None else '|c:' + container, time])

    def refuse_separators(self, texts, tags):
        if self.is_strict and has_separator(texts, tags, self.fault):
            raise Refused('separator in a text')

    def with_defaults(self, tags, container):
        """Returns the default tags and those of a call, and the container of the call, or else the default one."""
        own = self.tags[1:] if self.fault == 'a default tag is left out' else self.tags
        if container is None or self.container is not None and self.fault == 'the default container counts':
            container = self.container
        return tags + own if self.fault == 'a default tag stands last' else own + tags, container


def shown(label, text):
    """Returns a line of a report with a text."""
    escapes = {0x5c: '\\\\', 0x0a: '\\n'}
    plain = ''.join(escapes.get(byte) or (chr(byte) if 32 <= byte <= 126 else f'\\x{byte:02x}') for byte in text)
    return f'{label} {len(text)} {plain}' if text else f'{label} 0'


class Run:
    """A run of a script, which can be read."""

    def __init__(self, script, fault=None):
        lines = [line.split(' ') for line in script.split('\n') if line]
        self.steps = [(name, words) for name, *words in lines if name in STEPS]
        self.settings = {name: words for name, *words in lines if name not in STEPS}
        self.client = Client([line for line in lines if line[0] not in STEPS], fault)
        of = lambda name, default: self.settings.get(name, [default])[0]
        answers = self.settings.get('writer', [])
        self.packer = Packer(int(of('capacity', '512')), text_of(of('ending', '\\n')).encode(), answers, fault)
        most = of('aggregate', None)
        self.aggregator = most and Aggregator(int(most), self.packer, fault)
        limit = of('queue', None)
        self.limit, self.drops = limit and int(limit), of('policy', 'refuse') == 'drop'
        self.waiting, self.in_hand, self.is_stopped = [], None, False

    def call(self, words):
        try:
            line = self.client.line_of(words)
        except Refused as why:
            return f'call err {why}'
        if self.is_stopped:
            return 'call err channel disconnected'
        size = len(line.encode())
        if self.limit is None or len(self.waiting) < self.limit:
            self.waiting.append(line)
            return f'call ok {size}'
        if not self.drops or not self.waiting:
            return 'call err channel full'
        oldest = self.waiting.pop(0)
        self.waiting.append(line)
        return f'call ok {size} dropped {len(oldest.encode())}'

    def take(self, _words):
        if self.in_hand is not None:
            return 'take busy'
        if not self.waiting:
            return 'take ended' if self.is_stopped else 'take empty'
        self.in_hand = self.waiting.pop(0)
        return f'take text {len(self.in_hand.encode())}'

    def hand(self, _words):
        if self.in_hand is None:
            return 'hand nothing'
        line, self.in_hand = self.in_hand, None
        count = len(line.encode())
        try:
            if self.aggregator:
                self.aggregator.add(line)
            else:
                count = self.packer.write(line)
        except Refused as why:
            return f'hand err {why}'
        return f'hand ok {count}'

    def flush(self, _words):
        try:
            if self.aggregator:
                self.aggregator.flush()
            self.packer.flush()
        except Refused as why:
            return f'flush err {why}'
        return 'flush ok'

    def stop(self, _words):
        self.is_stopped = True
        return 'stop'

    def report(self):
        """Makes all steps, and returns the report."""
        lines = [getattr(self, name)(words) for name, words in self.steps]
        packer = self.packer
        lines += [shown('packet', packet) for packet in packer.packets]
        lines.append(shown('held', packer.held))
        lines += [shown('aggregated', line.encode()) for line in (self.aggregator.lines() if self.aggregator else [])]
        lines += [shown('waiting', line.encode()) for line in self.waiting]
        lines += [shown('inhand', self.in_hand.encode())] if self.in_hand is not None else []
        has_short = any(answer.startswith('short') for answer in self.settings.get('writer', []))
        lines.append(' '.join(['cut', *(['unknown'] if has_short else map(str, packer.cut))]))
        sums = sum(map(len, packer.packets)), len(packer.packets), sum(map(len, packer.refused)), len(packer.refused)
        lines.append(' '.join(['stats', *map(str, sums)]))
        return '\n'.join(lines) + '\n'

    def outcome(self):
        """Makes all steps, and returns the exit status of the program, its output and its errors."""
        return (0, self.report().encode(), b'') if self.client.is_usable() else UNUSABLE
