"""How far a run is: a line on standard error that is written over."""
import math
import sys
import time

WAIT = 1.0    # seconds before anything is shown
EVERY = 0.2
SURE = 3.0    # seconds after which it can be told how many are left
WIDE = 40


def some_time(seconds):
    """About how long something takes: tens of seconds, and from a minute and a half on minutes."""
    return f'some {max(10, math.ceil(seconds / 10) * 10)} s' if seconds < 90 else f'some {round(seconds / 60)} min'


class Line:
    """Shown on a terminal or where it is asked for, and wiped at the end."""

    def __init__(self, wanted=False, stream=None):
        self.stream, self.wide = stream or sys.stderr, 0
        self.on = wanted or self.stream.isatty()

    def write(self, text):
        self.stream.write('\r' + text.ljust(self.wide))
        self.stream.flush()
        self.wide = len(text)

    def __enter__(self):
        return self

    def __exit__(self, *_):
        if self.wide:
            self.stream.write('\r' + ' ' * self.wide + '\r')
            self.stream.flush()


class Bar(Line):
    """How many nodes are done, after a second, and how long the others will take, once that can be told."""

    def __init__(self, what, total, wanted=False, stream=None, clock=time.monotonic):
        super().__init__(wanted, stream)
        self.what, self.total, self.clock, self.done = what, total, clock, 0
        self.began = clock()
        self.next = self.began + WAIT

    def step(self, nodes):
        self.done += nodes
        now = self.clock() if self.on else 0.0
        if self.on and now >= self.next:
            self.next = now + EVERY
            self.show(now - self.began)

    def show(self, seconds):
        part = self.done / self.total
        text = f'{self.what} [{"#" * int(WIDE * part):<{WIDE}}] {100 * part:3.0f} %  {self.done:,} of {self.total:,} nodes'
        self.write(text + (f', {some_time(seconds * (1 - part) / part)} left' if seconds >= SURE and 0 < part < 1 else ''))
