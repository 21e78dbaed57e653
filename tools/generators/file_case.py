"""Calls of the survey file's reader and writer to be stored, and files put together from the paper's sentence, apart from the reading's writer."""
import itertools
import struct
from typing import NamedTuple

from tools.patterns import NAN, value
from tools.reading.survey import EXTERNAL, Survey
from tools.reading.survey_file import Lists
from tools.reading.variogram import Variogram

# the program's own arrays are as long as this
MOST_NUMBERS, MOST_BYTES = 8256, 66048
# no two of these are equal, and none is a mark; what is repeated of them comes again after so many
PERIOD = 61
CODE_PERIOD = 7


class Read(NamedTuple):
    """A call of the reader: the file, how much is lent of each area, and the number that it has to give."""

    data: bytes
    lent: Lists
    number: int


class Write(NamedTuple):
    """A call of the writer: the survey, how many bytes are lent, and the number that it has to give."""

    survey: Survey
    lent: int
    number: int


class File(NamedTuple):
    """What stands in a file: the note, the numbers of the body by their patterns, the codes, and what the trailer says, right or wrong."""

    note: bytes
    patterns: list
    codes: list
    n: int
    m: int
    start: int
    count: int
    model: int
    version: int = 1
    zeros: bytes = b"\0\0"

    def data(self):
        """"A free note, then the body from byte S: [..] as little-endian f64, then the codes, one byte each. The 14-byte trailer at the end [..]: S (4
        bytes), n, m, code count (2 each), model 1 to 4 in the enum's order and version 1 (a byte each), two zero bytes, little-endian"."""
        body = b"".join(pattern.to_bytes(8, "little") for pattern in self.patterns) + bytes(self.codes)
        counts = self.start.to_bytes(4, "little") + b"".join(count.to_bytes(2, "little") for count in (self.n, self.m, self.count))
        return self.note + body + counts + bytes([self.model, self.version]) + self.zeros


def fill(count, first=0):
    """So many patterns of finite numbers: all different up to PERIOD of them."""
    return [0x4000_0000_0000_0000 + ((i % PERIOD + 1) << 44) + 0x0102_0304_0506 * (i % PERIOD) for i in range(first, first + count)]


def numbers_in(n, m, k):
    """"nugget, sill, range, r, t, values, coordinates, externals, nodes, node externals"."""
    return 5 + n + 2 * n + k * n + 2 * m + k * m


def file_of(n, m, codes, note=b"", model=1):
    """A file that is well formed."""
    codes = list(codes)
    return File(note, fill(numbers_in(n, m, codes.count(EXTERNAL))), codes, n, m, len(note), len(codes), model)


def cycled(codes, count):
    return list(itertools.islice(itertools.cycle(codes), count))


def room(file):
    """How much each list of a file takes: values, coordinates, codes, externals, nodes, node externals."""
    k = file.codes.count(EXTERNAL)
    return Lists(file.n, 2 * file.n, len(file.codes), k * file.n, 2 * file.m, k * file.m)


def with_pattern(file, at, pattern):
    return file._replace(patterns=[pattern if i == at else p for i, p in enumerate(file.patterns)])


def floats(patterns):
    return [value(pattern) for pattern in patterns]


def survey_of(n, m, codes, model=1):
    """A survey whose file would be `file_of` the same."""
    codes = list(codes)
    k = codes.count(EXTERNAL)
    numbers = iter(floats(fill(numbers_in(n, m, k))))
    nugget, sill, span, r, t = itertools.islice(numbers, 5)
    values, coords, external, nodes, node_external = (list(itertools.islice(numbers, count)) for count in (n, 2 * n, k * n, 2 * m, k * m))
    return Survey(values, coords, codes, external, nodes, node_external, Variogram(model, nugget, sill, span), r, t)


def written_file(survey):
    """The file of a survey whose lengths fit: its patterns one by one, by struct. "A survey above 48 wells is written with version 2"."""
    taken = survey.node_external if EXTERNAL in survey.codes else []
    numbers = [*survey.variogram.numbers(), survey.r, survey.t, *survey.values, *survey.coords, *survey.external, *survey.nodes, *taken]
    patterns = [NAN if x != x else struct.unpack("<Q", struct.pack("<d", x))[0] for x in numbers]
    n, m, version = len(survey.values), len(survey.nodes) // 2, 1 + (len(survey.values) >= 49)
    return File(b"", patterns, survey.codes, n, m, 0, len(survey.codes), survey.variogram.model, version)
