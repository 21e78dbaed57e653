"""Runs of `rt` and of the prover."""
import os
import signal
import subprocess
import threading
import time

GONE_WITHIN = 10  # seconds; a prover that is killed gives back a gigabyte first


class Stopped(Exception):
    """The run was interrupted."""


def wait_for_group(group):
    """Waits until no process of the group is left."""
    until = time.monotonic() + GONE_WITHIN
    try:
        while time.monotonic() < until:
            os.killpg(group, 0)
            time.sleep(0.01)
    except ProcessLookupError:
        pass


class Checks:
    """Runs commands, each in a process group of its own, so that an interrupted run leaves none behind; the prover's temporary files are in one folder."""

    def __init__(self, temporary):
        self.environment = {**os.environ, "TMPDIR": str(temporary)}
        # a signal's handler may ask for the lock while the main thread has it
        self.running, self.stopped, self.lock = set(), False, threading.RLock()

    def begin(self, words, folder, out):
        with self.lock:
            if self.stopped:
                raise Stopped
            process = subprocess.Popen(
                words, cwd=folder, env=self.environment, stdin=subprocess.DEVNULL, stdout=out, stderr=subprocess.STDOUT, start_new_session=True
            )
            self.running.add(process)
        return process

    def end(self, process):
        """The exit status, once it is there. Of an interrupted run what the command began has to be gone too: it writes into its room."""
        status = process.wait()
        with self.lock:
            self.running.discard(process)
            stopped = self.stopped
        if stopped:
            wait_for_group(process.pid)
            raise Stopped
        return status

    def run(self, words, folder, log):
        """The exit status of the command in the folder; what it prints goes to the log."""
        with open(log, "wb") as out:
            return self.end(self.begin(words, folder, out))

    def stop(self):
        """Ends every check that is under way, and lets none begin."""
        with self.lock:
            self.stopped = True
            for process in self.running:
                try:
                    os.killpg(process.pid, signal.SIGKILL)
                except ProcessLookupError:
                    pass
