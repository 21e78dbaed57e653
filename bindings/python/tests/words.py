"""The stored answers of docs/TESTS.md: records of words of 64 bits, the lowest byte first, an f64 by its pattern and every NaN as one."""
import struct
from pathlib import Path

REPOSITORY = Path(__file__).resolve().parents[3]
NAN = 0x7FF8_0000_0000_0000
MARK, MARK_BYTE = 0x4730_0000_0000_0000, 99


def patterns(xs):
    xs = list(xs)
    return [NAN if x != x else word for x, word in zip(xs, struct.unpack(f"<{len(xs)}Q", struct.pack(f"<{len(xs)}d", *xs)))]


def marks(start, end):
    return [MARK + at for at in range(start, end)]


def marked(length):
    """An area before a call: each place has a mark of its own."""
    return struct.unpack(f"<{length}d", struct.pack(f"<{length}Q", *marks(0, length)))


def holds(area, told, written):
    """Whether an area holds what is told, and past what is written its marks."""
    here = patterns(area)
    return here[:len(told)] == told and here[written:] == marks(written, len(here))


class Words:
    """A file's words, taken one after another."""

    def __init__(self, name):
        data = (REPOSITORY / "crates" / name / "stdin").read_bytes()
        self.words, self.at = struct.unpack(f"<{len(data) // 8}Q", data), 0

    def more(self):
        return self.at < len(self.words)

    def take(self, count):
        self.at += count
        return list(self.words[self.at - count:self.at])

    def word(self):
        return self.take(1)[0]

    def numbers(self, count):
        return list(struct.unpack(f"<{count}d", struct.pack(f"<{count}Q", *self.take(count))))


def stored(name):
    """The words of crates/NAME/stdin, or None where this repository does not have it."""
    return Words(name) if (REPOSITORY / "crates" / name / "stdin").is_file() else None
