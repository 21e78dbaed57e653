"""The crates that a build proves: which they are, how many are proved, and how long the others will take."""
import time
from pathlib import Path

from mapper.progress import Line, some_time

# A crate a line, with the seconds of one core that it takes, about: `python3 -m mapper.developers.crate_seconds` makes it anew.
SECONDS = Path(__file__).with_name('crate_seconds.txt')
UNKNOWN = 10.0  # seconds of a crate that is not in the table
STEADY = 60.0   # seconds that the table is believed for, before this machine's own pace counts as much
EVERY = 1.0


def dependencies(path):
    """What each crate of the repository needs, of the repository itself: none where there is no list of crates."""
    if not path.is_file():
        return {}
    lines = (line.split('#')[0].partition(':') for line in path.read_text(encoding='utf-8').splitlines())
    found = {head.split()[0]: needs.split() for head, colon, needs in lines if colon}  # behind a name its kind may stand
    return {name: [each for each in needs if each in found] for name, needs in found.items()}


def reached(names, needs):
    """These crates and all that they need, those first that others need."""
    found = []
    for name in names:
        found += [each for each in reached(needs.get(name, ()), needs) + [name] if each not in found]
    return found


def seconds_of(crates):
    """How long each crate takes."""
    table = dict(line.split() for line in SECONDS.read_text(encoding='utf-8').splitlines())
    return {name: float(table.get(name, UNKNOWN)) for name in crates}


class Count:
    """How many of some crates are proved, and how long the others will take where so many seconds of the table go by in one."""

    def __init__(self, crates, rate, done=()):
        self.crates, self.rate, self.seconds = crates, rate, seconds_of(crates)
        self.done, self.pace, self.ahead, self.at = set(done), 1.0, 0.0, 0.0
        self.before = self.work(self.done)
        self.now(self.done, 0.0)

    def work(self, crates):
        return sum(self.seconds[name] for name in crates)

    def now(self, done, elapsed):
        """Takes note of what is done after so many seconds."""
        if set(done) != self.done or not self.ahead:
            self.done, self.at = set(done), elapsed
            spent = (self.work(self.done) - self.before) / self.rate
            self.pace = (elapsed + STEADY) / (spent + STEADY)
            self.ahead = self.pace * (self.work(self.crates) - self.work(self.done)) / self.rate

    def words(self, elapsed):
        """How far it is: what is told of the crate in hand is the first that is not proved."""
        hand = next((name for name in self.crates if name not in self.done), 'the last steps')
        clock = f'{int(elapsed) // 60}:{int(elapsed) % 60:02}'
        return f'{len(self.done)} of {len(self.crates)} crates, {hand}, {clock}, {some_time(self.ahead - (elapsed - self.at))} left'


class CrateLine(Line):
    """Shows a count, once a second."""

    def __init__(self, count, wanted=False, stream=None, clock=time.monotonic):
        super().__init__(wanted, stream)
        self.count, self.clock, self.began, self.next = count, clock, clock(), 0.0

    def show(self, done):
        elapsed = self.clock() - self.began
        self.count.now(done, elapsed)
        if self.on and elapsed >= self.next:
            self.next = elapsed + EVERY
            self.write(self.count.words(elapsed))
