"""The processes of this machine as /proc lists them, and a way to end all that a program started."""
import collections, contextlib, ctypes, os, signal, time

TICK = os.sysconf('SC_CLK_TCK')
PR_SET_CHILD_SUBREAPER = 36


def children_of_each():
    """Returns the children of each process: their number, when they were started and the processor seconds that they used."""
    children = collections.defaultdict(list)
    for number in filter(str.isdigit, os.listdir('/proc')):
        try:
            with open(f'/proc/{number}/stat') as file:
                fields = file.read().rpartition(')')[2].split()
        except OSError:
            continue
        used = (int(fields[11]) + int(fields[12])) / TICK
        children[int(fields[1])].append((int(number), fields[19], used))
    return children


def descendants(root):
    """Yields the processes below a process: their number, when they were started and the processor seconds that they used."""
    children, pending = children_of_each(), [root]
    while pending:
        for child in children.get(pending.pop(), ()):
            pending.append(child[0])
            yield child


def adopt_orphans():
    """Makes a process whose parent ends a child of this one, so that `end_all` finds it."""
    ctypes.CDLL(None).prctl(PR_SET_CHILD_SUBREAPER, 1, 0, 0, 0)


def end_all():
    """Kills every process below this one, until none is left."""
    while below := [number for number, _, _ in descendants(os.getpid())]:
        for number in below:
            with contextlib.suppress(ProcessLookupError):
                os.kill(number, signal.SIGKILL)
        with contextlib.suppress(ChildProcessError):
            while os.waitpid(-1, os.WNOHANG)[0]:
                pass
        time.sleep(0.01)
