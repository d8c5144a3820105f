"""One run at a time in a tree, and nothing of it left behind when it is interrupted."""
import ctypes
import fcntl
import os
import signal
import time

SIGNALS = (signal.SIGINT, signal.SIGTERM, signal.SIGHUP)
SIGPIPE = signal.SIGPIPE
PR_SET_CHILD_SUBREAPER = 36


class Interrupted(BaseException):
    """By which signal."""


def interrupt(number, _frame):
    raise Interrupted(number)


def heed_signals():
    """Signals stop the run, but those that whoever started it had it ignore (nohup)."""
    for number in SIGNALS:
        if signal.getsignal(number) != signal.SIG_IGN:
            signal.signal(number, interrupt)


def ignore_signals():
    """While what was begun is stopped or put in its place."""
    for number in SIGNALS:
        signal.signal(number, signal.SIG_IGN)


def adopt_orphans():
    """So that what outlives its own parent is still found below this process."""
    try:
        ctypes.CDLL(None).prctl(PR_SET_CHILD_SUBREAPER, 1, 0, 0, 0)
    except (OSError, AttributeError):
        pass


def only_run(path):
    """Takes the tree, by a lock on a file of it that ends with the last process of the run, however that ends. None where it is taken."""
    try:
        held = os.open(path, os.O_RDWR)
    except OSError:
        held = os.open(path, os.O_RDONLY)
    try:
        fcntl.flock(held, fcntl.LOCK_EX | fcntl.LOCK_NB)
    except OSError:
        os.close(held)
        return None
    # Whatever is started holds it too: a run whose first process was killed may still be writing.
    os.set_inheritable(held, True)
    return held


def below(process):
    """Every process that this one began, those that they began, and so on; none that has ended."""
    children = {}
    for entry in os.listdir('/proc'):
        if entry.isdigit():
            try:
                with open(f'/proc/{entry}/stat', 'rb') as file:
                    state, parent = file.read().rpartition(b')')[2].split()[:2]
            except OSError:
                continue
            if state not in b'ZX':
                children.setdefault(int(parent), []).append(int(entry))
    found, left = [], [process]
    while left:
        left += (more := children.get(left.pop(), []))
        found += more
    return found


def reap():
    try:
        while os.waitpid(-1, os.WNOHANG)[0]:
            pass
    except ChildProcessError:
        pass


def send(number, processes):
    for process in processes:
        try:
            os.kill(process, number)
        except OSError:
            pass


def stop_all(grace=15, at_most=25):
    """Ends every process below this one: by asking, so that they tidy up (the test has a folder in memory), and then without. Gives those
    that are left, which is none unless the kernel holds them."""
    send(signal.SIGTERM, below(os.getpid()))
    asked = time.monotonic()
    while True:
        reap()
        left, waited = below(os.getpid()), time.monotonic() - asked
        if not left or waited > at_most:
            return left
        if waited > grace:
            send(signal.SIGKILL, left)
        time.sleep(0.05)
