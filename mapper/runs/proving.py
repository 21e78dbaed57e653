"""Commands of the repository that take minutes: what they print goes to files in target/, a line shows how far they are, and none is left behind."""
import contextlib
import fcntl
import os
import signal
import subprocess
import threading
from dataclasses import dataclass
from pathlib import Path
from typing import List, Optional

from mapper.errors import Stop

POLL = 0.2
LOCK = 'map-build.lock'


@dataclass
class Step:
    """A command, the file in target/ for what it prints, and the file that it may leave half written."""
    command: List[str]
    log: str
    makes: Optional[Path] = None


@contextlib.contextmanager
def alone(root, tell):
    """Holds the lock on target/: two runs that prove the same crate at once would spoil it for each other. Whatever is started below has it, too."""
    with opened(root / 'target' / LOCK) as lock:
        try:
            fcntl.flock(lock, fcntl.LOCK_EX | fcntl.LOCK_NB)
        except BlockingIOError:
            tell('Another run is building it; this one waits until that is done ..')
            fcntl.flock(lock, fcntl.LOCK_EX)
        except OSError:
            pass  # a file system without locks
        yield lock


def opened(path):
    try:
        path.parent.mkdir(exist_ok=True)
        return open(path, 'w')
    except OSError as error:
        raise Stop(f'{path.parent} cannot be written: {error.strerror}. The program is built there; see that this folder can be written to.')


@contextlib.contextmanager
def stoppable():
    """Has a closed window and a plain kill end what is done as Ctrl-C does."""
    here = threading.current_thread() is threading.main_thread()  # elsewhere signals cannot be set
    plain = [each for each in (signal.SIGTERM, signal.SIGHUP) if here and signal.getsignal(each) == signal.SIG_DFL]
    for each in plain:
        signal.signal(each, signal.default_int_handler)
    try:
        yield
    finally:
        for each in plain:
            signal.signal(each, signal.SIG_DFL)


def run_step(root, step, lock, show=lambda: None):
    """Runs the step; `show` is called every now and then. Ctrl-C ends it, with all that it started."""
    with stoppable():
        process = begin(root, step, lock)
        try:
            while not ended(root, step, process):
                show()
        except BaseException:
            end(process)
            if step.makes:
                (root / step.makes).unlink(missing_ok=True)
            raise


def begin(root, step, lock):
    """Starts a step, in a session of its own: what it starts in turn does not hear Ctrl-C, and has to be ended with it."""
    with open(root / 'target' / step.log, 'wb') as log:
        return subprocess.Popen(step.command, cwd=root, stdin=subprocess.DEVNULL, stdout=log, stderr=subprocess.STDOUT, start_new_session=True,
                                pass_fds=[lock.fileno()])


def ended(root, step, process):
    """Whether a step has ended, after a moment's wait; one that did not end well ends the run."""
    try:
        code = process.wait(POLL)
    except subprocess.TimeoutExpired:
        return False
    if code:
        raise Stop(f'`{" ".join(step.command)}` did not end well (status {code}). What it printed is in {root / "target" / step.log}.')
    return True


def end(process):
    """Ends a step and all that it started."""
    with contextlib.suppress(ProcessLookupError):
        os.killpg(process.pid, signal.SIGTERM)
    process.wait()
