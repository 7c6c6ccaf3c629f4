"""The crates of this repository as crates.txt lists them, and which test crates test each of them."""
import glob, os

HOME = os.path.dirname(os.path.dirname(os.path.abspath(__file__)))
TESTS = ('test_', 'example_')  # the name of a test crate begins so


def lines():
    """Returns for each crate, lowest first, the words that its line of crates.txt has before the colon, and those after it."""
    with open(f'{HOME}/crates.txt', encoding='utf-8') as file:
        parts = [line.partition(':') for line in file if ':' in line and not line.startswith('#')]
    return {words.split()[0]: (words.split(), uses.split()) for words, _, uses in parts}


def uses():
    """Returns for each crate the crates of this repository that its line names."""
    found = lines()
    return {name: [used for used in names if used in found] for name, (_, names) in found.items()}


def users_of(names):
    """Returns the crates whose lines name one of these."""
    return [crate for crate, used in uses().items() if set(names) & set(used)]


def is_test(name):
    return name.startswith(TESTS)


def tests_of(name):
    """Returns the test crates whose lines name a crate. If there are none, it returns those of the crates that use it, and so
    on upwards. Also returns the crates that these tests name."""
    named = [name]
    while named:
        users = users_of(named)
        if found := [crate for crate in users if is_test(crate)]:
            return found, named
        named = users
    return [], []


def tests_above(name):
    """Returns all test crates that use a crate, also through others."""
    above, more = set(), [name]
    while more := set(users_of(more)) - above:
        above |= more
    return [crate for crate in uses() if crate in above and is_test(crate)]


def has_tests(crate):
    for path in glob.glob(f'{HOME}/crates/{crate}/src/**/*.rt', recursive=True):
        with open(path, 'rb') as file:
            if b'#[test]' in file.read():
                return True
    return False


def has_program(crate):
    return os.path.exists(f'{HOME}/crates/{crate}/src/main.rt')


def is_tested(name):
    """Returns whether a test or a program in Rattle runs a crate. The tests of the bindings run others."""
    return has_tests(name) or has_program(name) or bool(tests_of(name)[0])
