"""What the sources of the crates export, read by regular expressions: the items and modules of each module, and the calls,
fields and variants of each type. It takes only the forms that `rt fmt` lays out, and .ci/public-calls has a test of it."""
import functools, glob, os, re, sys

ITEM = re.compile(r'(?m)^pub (?:const |unsafe )*(fn|struct|enum|trait|type|const|static|mod) (\w+)')
USE = re.compile(r'(?m)^pub use ([^;]+);')


def stop(message):
    sys.exit(f'public-calls: {message}')


@functools.cache
def text_of(path):
    with open(path, encoding='utf-8') as file:
        return file.read()


@functools.cache
def without_comments(text):
    return re.sub(r'(?m)(?<![:/"])//.*$', '', text)


def file_of(crate, parts):
    return f'crates/{crate}/src/{"/".join(parts) or "lib"}.rt'


def uses(text):
    """Yields the path and the name that each `pub use` takes, and the name that it gives."""
    for body in USE.findall(text):
        body = re.sub(r'\s+', ' ', body).strip()
        path, braces, names = body.partition('::{')
        for name in names.rstrip('} ').split(',') if braces else [body.rpartition('::')[2]]:
            old, _, new = name.strip().partition(' as ')
            if old:
                yield path if braces else body.rpartition('::')[0], old, new or old


@functools.cache
def is_file(path):
    return os.path.exists(path)


def is_module(crate, parts):
    return is_file(file_of(crate, parts))


def step(crate, parts, name):
    """Returns the module of this name in a module: one of its own, or one that it passes on."""
    if is_module(crate, [*parts, name]):
        return crate, [*parts, name]
    for path, old, new in uses(without_comments(text_of(file_of(crate, parts)))):
        if new == name:
            return walk(crate, parts, [*path.split('::'), old])
    stop(f'{file_of(crate, parts)} has no module {name}')


def walk(crate, parts, path):
    """Returns the module that a path leads to from this module."""
    words = [word for word in path if word]
    if words and words[0] == 'crate':
        parts, words = [], words[1:]
    elif words and words[0] == 'super':
        parts, words = parts[:-1], words[1:]
    elif words and not is_module(crate, [*parts, words[0]]) and os.path.isdir(f'crates/{words[0]}'):
        crate, parts, words = words[0], [], words[1:]
    for word in words:
        crate, parts = step(crate, parts, word)
    return crate, parts


def exports(crate, parts):
    """Returns the items of a module, each with where it is defined, and its public modules, each with where it is."""
    text = without_comments(text_of(file_of(crate, parts)))
    items, modules = {}, {}
    for kind, name in ITEM.findall(text):
        if kind == 'mod':
            modules[name] = (crate, [*parts, name])
        else:
            items[name] = (kind, crate, tuple(parts), name)
    for path, old, new in uses(text):
        where = walk(crate, parts, path.split('::'))
        if not path and os.path.isdir(f'crates/{old}'):
            modules[new] = (old, [])
        elif is_module(*where) and is_module(where[0], [*where[1], old]):
            modules[new] = (where[0], [*where[1], old])
        else:
            items[new] = exports(*where)[0].get(old) or stop(f'{file_of(crate, parts)} exports {old}, which is not there')
    return items, modules


def blocks(text):
    """Yields the head and the lines of each `impl` and each trait."""
    lines = iter(text.splitlines())
    for line in lines:
        if re.match(r'impl\b|pub trait\b', line):
            head = [line]
            while not head[-1].rstrip().endswith(('{', '{}')):
                head.append(next(lines))
            inside = []
            while not head[-1].rstrip().endswith('}') and not (inside and inside[-1] == '}'):
                inside.append(next(lines))
            yield ' '.join(' '.join(head).split()), inside


def subject(head):
    """Returns the type of an `impl` that is of no trait, or the name of a trait."""
    head = head.removeprefix('pub trait ').removeprefix('impl').strip()
    if ' for ' in head:
        return None
    while head.startswith('<'):
        head = head[length_of_brackets(head, '<', '>'):].strip()
    return re.match(r'\w+', head)[0]


def calls_in(crate):
    """Returns the signatures of the calls of each type and trait of a crate, by its name and its file."""
    calls = {}
    for path in sorted(glob.glob(f'crates/{crate}/src/**/*.rt', recursive=True)):
        if '/tests' not in path:
            for head, lines in blocks(without_comments(text_of(path))):
                pattern = r'    fn (\w+)' if head.startswith('pub trait') else r'    pub (?:const |unsafe )*fn (\w+)'
                name = subject(head)
                if name:
                    found = [signature(lines[at:]) for at, line in enumerate(lines) if re.match(pattern, line)]
                    calls.setdefault((name, path), []).extend(found)
    return calls


def signature(lines):
    """Returns the name, the parameters and the result of the function that begins in the first of these lines, without its type
    parameters, its contract and what proofs alone read."""
    text = ' '.join(' '.join(lines).split())
    name = re.search(r'\bfn (\w+)', text)
    rest = text[name.end():]
    if rest.startswith('<'):
        rest = rest[length_of_brackets(rest, '<', '>'):]
    length = length_of_brackets(rest, '(', ')')
    given = [part for part in re.split(r', (?=(?:mut )?(?:ghost )?\w+: )', rest[1:length - 1].strip(' ,')) if part and not part.startswith('ghost ')]
    result = re.match(r' -> (.*?)(?: \{|;| where\b| ensures\b| requires\b|$)', rest[length:])
    return f'{name[1]}({", ".join(part.removeprefix("mut ") for part in given)})' + (f' -> {result[1]}' if result else '')


def length_of_brackets(text, opening, closing):
    """Returns how long the part in brackets is with which a text begins. The bracket of an arrow counts as none."""
    depth = 0
    for at, sign in enumerate(text):
        depth += (sign == opening) - (sign == closing and text[at - 1] != '-')
        if not depth:
            return at + 1
    stop(f'{text} has no end of {opening}')


def body_of(item):
    """Returns the comment of an item, without its marks, and its lines."""
    kind, crate, parts, name = item
    lines = text_of(file_of(crate, parts)).splitlines()
    at = next(at for at, line in enumerate(lines) if re.match(rf'pub (?:const |unsafe )*{kind} {name}\b', line))
    end = next((at for at in range(at, len(lines)) if lines[at] == '}' or re.search('[;}]$', lines[at]) and lines[at][0] != ' '), len(lines))
    first = at
    while first and lines[first - 1].strip() and not re.match(r'[}\w]', lines[first - 1]):
        first -= 1
    return ' '.join(line[3:].strip() for line in lines[first:at] if line.startswith('///')), lines[at:end]


def parts_of(item):
    """Returns the public fields of a struct, the variants of an enum, or the signature of a function."""
    kind = item[0]
    lines = without_comments('\n'.join(body_of(item)[1])).splitlines()
    if kind == 'fn':
        return [signature(lines)]
    pattern = {'struct': r'    pub (\w+: .*),$', 'enum': r'    ([A-Z][^{=]*?)(?: [{=].*)?,?\s*$'}.get(kind, r'(?!)')
    return [match[1] for match in (re.match(pattern, line) for line in lines) if match]
