"""A run over the edits of some crates: several at a time, each in a room of its own, and a line for each as it ends."""
import signal
import threading
import time
import traceback

from . import fitting, rooms
from .checks import Checks, Stopped
from .edits import Bad, apply
from .prover import Prover
from .verdicts import BAD, REFUSED, SHAPE, UNPROVED, verdict


def say(text):
    """A line of its own, at once."""
    print(f"mutants: {text}", flush=True)


class Trial:
    """The edits of some crates, and what became of those that were tried."""

    def __init__(self, root, crates, jobs):
        self.root, self.crates, self.jobs = root, crates, jobs
        self.logs = root / "target" / "mutants"
        self.waiting = {crate: list(crate.edits) for crate in crates}
        self.unfinished = {crate: len(crate.edits) for crate in crates}
        self.wholes = {}  # of each crate that a worker has begun with: None, then its whole folder and what is in it
        self.told, self.failures, self.fault = 0, [], False
        self.base = rooms.house()
        self.checks, self.prover, self.turn = Checks(self.base / "tmp"), Prover(), threading.Condition()

    def run(self):
        """Tries all edits. Answers the exit status."""
        began = time.monotonic()
        for ending in (signal.SIGINT, signal.SIGTERM, signal.SIGHUP):
            signal.signal(ending, lambda *_: self.stop())
        self.logs.mkdir(parents=True, exist_ok=True)
        try:
            if not self.libraries_proved():
                return 1
            workers = [threading.Thread(target=self.work) for _ in range(self.jobs)]
            for worker in workers:
                worker.start()
            for worker in workers:
                worker.join()
        except Stopped:
            pass
        finally:
            rooms.remove(self.base)
        if self.fault:
            say("a fault in this tool, told above; nothing is left behind")
            return 2
        if self.checks.stopped:
            say("interrupted; nothing is left behind")
            return 130
        return self.summary(time.monotonic() - began)

    def libraries_proved(self):
        """Has `rt lib` prove and build what the edits' crates stand on, where that is not done yet."""
        needed = {need for crate in self.crates for need in crate.needs}
        highest = [need for need in needed if not any(need in other.below() for other in needed)]
        for crate in sorted(highest, key=lambda each: each.name):
            began, log = time.monotonic(), self.logs / f"{crate.name}.library.log"
            if self.checks.run(["rt", "lib"], crate.folder, log) != 0:
                say(f"the crates themselves are not proved: {log.relative_to(self.root)} says why")
                return False
            say(f"the library {crate.name} and those below it proved ({time.monotonic() - began:.0f} s)")
        return True

    def summary(self, seconds):
        """The last lines: what was not refused by a fact, and the count."""
        for failure in self.failures:
            say(failure)
        tried = sum(len(crate.edits) for crate in self.crates)
        say(f"{tried} edits, {tried - len(self.failures)} refused by a fact, {len(self.failures)} not ({seconds:.0f} s)")
        return 1 if self.failures else 0

    # ---- the workers

    def work(self):
        """One worker: takes what comes next until nothing is left."""
        try:
            while (job := self.take()) is not None:
                crate, edit = job
                if edit is None:
                    self.prepare(crate)
                else:
                    self.attempt(crate, edit)
        except Stopped:
            pass
        except Exception:
            self.fault = True
            traceback.print_exc()
            self.stop()

    def take(self):
        """What comes next: a crate that no worker has begun with (and no edit), or a crate that is ready and its next edit; None where all are given out.

        Edits of a crate that another worker is preparing wait, and the worker goes on with the next crate."""
        with self.turn:
            while not self.checks.stopped:
                for crate in self.crates:
                    if crate not in self.wholes:
                        self.wholes[crate] = None
                        return crate, None
                    if self.wholes[crate] and self.waiting[crate]:
                        return crate, self.waiting[crate].pop(0)
                if not any(self.waiting.values()):
                    return None
                self.turn.wait()
            return None

    def stop(self):
        """Ends the run."""
        self.checks.stop()
        with self.turn:
            self.turn.notify_all()

    def prepare(self, crate):
        """Checks the untouched crate: that fills what is kept of it, and an edit of a crate that is not proved would say nothing."""
        began, room, log = time.monotonic(), self.base / crate.name / "untouched", self.logs / f"{crate.name}.log"
        rooms.make(room, crate)
        rooms.seed(room, crate)
        proved = self.checks.run(self.prover.command(crate, rooms.KEPT), room, log) == 0
        whole = room / rooms.KEPT
        with self.turn:
            if proved:
                say(f"{crate.name} proved as it stands ({time.monotonic() - began:.0f} s), {len(crate.edits)} edits to try")
                self.wholes[crate] = (whole, rooms.state(whole))
            else:
                self.waiting[crate] = []
                self.failures += [f"{crate.name}/{edit.stem}: {UNPROVED}" for edit in crate.edits]
                say(f"{crate.name} is not proved as it stands: {log.relative_to(self.root)} says why")
            self.turn.notify_all()

    def attempt(self, crate, edit):
        """Tries one edit in a room of its own, which is gone after it."""
        began, room = time.monotonic(), self.base / crate.name / f"{edit.parent.name}-{edit.stem}"
        whole, before = self.wholes[crate]
        log = self.logs / crate.name / f"{edit.stem}.log"
        log.parent.mkdir(exist_ok=True)
        rooms.make(room, crate)
        rooms.link(whole, room / rooms.KEPT)
        try:
            apply(edit, room)
            status = self.checks.run(self.prover.command(crate, rooms.KEPT), room, log)
            word, where = verdict(status, log.read_text(encoding="utf-8", errors="replace"))
            if word == SHAPE and self.fitted(crate, room):
                status = self.checks.run(self.prover.command(crate, rooms.KEPT), room, log)
                word, where = verdict(status, log.read_text(encoding="utf-8", errors="replace"))
        except Bad as why:
            word, where = BAD, str(why)
        rooms.remove(room)
        self.tell(crate, edit, word, where, time.monotonic() - began)
        self.finished_one(crate, whole, before)

    def fitted(self, crate, room):
        """Fits the room's proofs to its code, by the names in the untouched crate and in the room. Answers whether any proof changed."""
        return fitting.fit(room, self.names(crate, self.base / crate.name / "untouched"), self.names(crate, room))

    def names(self, crate, room):
        """The names that the prover has for the goals and steps of a room's code."""
        folder = room / "names"
        if not folder.is_dir():
            self.checks.run(self.prover.listing(crate, folder), room, self.logs / f"{crate.name}.names.log")
        return fitting.listed(folder)

    def tell(self, crate, edit, word, where, seconds):
        """The edit's line."""
        with self.turn:
            self.told += 1
            line = f"{crate.name}/{edit.stem}: {word}, {where}"
            say(f"{self.told} of {sum(len(c.edits) for c in self.crates)}, {line} ({seconds:.0f} s)")
            if word != REFUSED:
                self.failures.append(line)

    def finished_one(self, crate, whole, before):
        """After its last edit a crate's folder goes; it has to be what it was before the first one, or the links were no copies."""
        with self.turn:
            self.unfinished[crate] -= 1
            last = self.unfinished[crate] == 0
        if last:
            if rooms.state(whole) != before:
                self.failures.append(f"{crate.name}: the prover wrote into what was kept of it, so that its edits have to be tried on copies")
            rooms.remove(self.base / crate.name)
