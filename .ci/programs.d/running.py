"""What the tests of all programs share: how a program is run, and the datagrams that it sends."""
import os, socket, subprocess

LONGEST = 60  # seconds


def contents(path, default):
    if not os.path.exists(path):
        return default
    with open(path, 'rb') as file:
        return file.read()


def report_line(text, word=b'packet'):
    """Returns the line that a program prints for a packet or a metric: its length, and its bytes with a report's escapes."""
    escapes = {ord('\\'): b'\\\\', ord('\n'): b'\\n'}
    plain = lambda byte: b'%c' % byte if 32 <= byte <= 126 else b'\\x%02x' % byte
    return b'%s %d %s\n' % (word, len(text), b''.join(escapes.get(byte) or plain(byte) for byte in text))


def result_of(command, given=None, source=None, output=subprocess.PIPE, errors=subprocess.PIPE, environment={}, first=None,
              folder=None):
    """Runs a command, and returns its status, its output and its errors."""
    others = {name: text for name, text in os.environ.items() if not name.startswith(('STATSD_', 'DD_'))}
    how = {'stdout': output, 'stderr': errors, 'env': {**others, **environment}, 'preexec_fn': first, 'cwd': folder}
    how.update({'input': given} if source is None else {'stdin': source})
    try:
        run = subprocess.run(command, timeout=LONGEST, **how)
    except subprocess.TimeoutExpired:
        return 'no end', b'', b''
    return run.returncode, run.stdout or b'', run.stderr or b''


def bound(path):
    """Returns a Unix datagram socket that is bound to a path."""
    server = socket.socket(socket.AF_UNIX, socket.SOCK_DGRAM)
    server.bind(path)
    server.settimeout(LONGEST)
    return server


def status_of(run):
    """Returns the status of a process, and kills the process if it doesn't end."""
    try:
        return run.wait(LONGEST)
    except subprocess.TimeoutExpired:
        run.kill()
        return 'no end'


def next_datagram(server):
    try:
        return server.recv(512)
    except OSError:
        return b'no datagram'


def next_datagram_at_once(server):
    server.settimeout(0)
    return next_datagram(server)
