"""Paper 01, "Survey file", and what paper 02, "Two wells in one yard" and "Ninety-six wells", says of it."""
import struct
from typing import NamedTuple

from tools.patterns import NAN, value
from tools.reading import refusals
from tools.reading.survey import EXTERNAL, Survey
from tools.reading.variogram import SAME_SPOT, Variogram

TRAILER = "<IHHHBBH"
TRAILER_LENGTH = 14
MOST_BYTES, MOST_COUNT = 65536, 65535
# slip 7: "a version 2 file must have n from 49 to 96"
SECOND_VERSION = range(49, 97)


class Lists(NamedTuple):
    """The areas that the reader fills."""

    values: list
    coords: list
    codes: list
    external: list
    nodes: list
    node_external: list


def packed(numbers):
    """"as little-endian f64", a NaN as the one NaN."""
    return b"".join(struct.pack("<Q", NAN) if x != x else struct.pack("<d", x) for x in numbers)


def unpacked(data):
    numbers = [value(pattern) for (pattern,) in struct.iter_unpack("<Q", data)]
    return [value(NAN) if x != x else x for x in numbers]


def taken_node_external(survey):
    """Node externals are "ignored if k = 0"."""
    return survey.node_external if survey.k > 0 else []


def body(survey):
    """"nugget, sill, range, r, t, values, coordinates, externals, nodes, node externals as little-endian f64, then the codes, one byte each"."""
    head = [*survey.variogram.numbers(), survey.r, survey.t]
    lists = [*survey.values, *survey.coords, *survey.external, *survey.nodes, *taken_node_external(survey)]
    return packed(head + lists) + bytes(survey.codes)


def version_for(n):
    """"A survey above 48 wells is written with version 2 in the same trailer, and others stay version 1"."""
    return 2 if n > 48 else 1


def trailer(survey, start=0, version=None):
    """"S (4 bytes), n, m, code count (2 each), model 1 to 4 in the enum's order and version 1 (a byte each), two zero bytes, little-endian"."""
    told = version_for(survey.n) if version is None else version
    return struct.pack(TRAILER, start, survey.n, survey.m, len(survey.codes), survey.variogram.model, told, 0)


def file_length(survey):
    lists = survey.values, survey.coords, survey.external, survey.nodes, taken_node_external(survey)
    return 8 * (5 + sum(map(len, lists))) + len(survey.codes) + TRAILER_LENGTH


def writer_tests(survey, area):
    """"refuses by 1, 2, 6, 8, 11 (r and t included), 16 (over 65,536 bytes or a count over 65,535), 18, in that order"; "Survey files don't carry it and
    take 2^-52; a writer handed any other refuses by 22", "straight after 11"; "The writer refuses n > 96 by 16"."""
    n, m, k = survey.n, survey.m, survey.k
    yield 1, len(survey.coords) != 2 * n
    yield 2, len(survey.nodes) % 2 != 0
    yield 6, len(survey.external) != k * n
    yield 8, k > 0 and len(survey.node_external) != k * m
    yield 11, refusals.some_not_finite([*survey.judged(), survey.r, survey.t])
    yield 22, survey.variogram.same_spot != SAME_SPOT
    yield 16, file_length(survey) > MOST_BYTES or max(n, m, len(survey.codes)) > MOST_COUNT or n > 96
    yield 18, len(area) < file_length(survey)


def write(survey, area):
    """The writer's number, and how many bytes it wrote: "The writer puts S = 0"."""
    number = refusals.first(writer_tests(survey, area))
    if number:
        return number, 0
    data = body(survey) + trailer(survey)
    area[:len(data)] = data
    return 0, len(data)


def lengths(n, m, k):
    """The f64 lists of the body after its five numbers: values, coordinates, externals, nodes, node externals."""
    return [n, 2 * n, k * n, 2 * m, k * m]


def wrong_version(version, n):
    """"The new reader takes both, version 1 at any n as before; a version 2 file must have n from 49 to 96, else 16"."""
    return version not in (1, 2) or (version == 2 and n not in SECOND_VERSION)


def malformed(data):
    """"16: under 14 or over 65,536 bytes, lengths that do not meet exactly, another model or version, trailer zeros not zero"."""
    if not TRAILER_LENGTH <= len(data) <= MOST_BYTES:
        return True
    start, n, m, c, model, version, zeros = struct.unpack(TRAILER, data[-TRAILER_LENGTH:])
    end = len(data) - TRAILER_LENGTH
    if c > end:
        return True
    k = data[end - c:end].count(EXTERNAL)
    return start + 8 * (5 + sum(lengths(n, m, k))) + c != end or model not in (1, 2, 3, 4) or wrong_version(version, n) or zeros != 0


def parsed(data):
    """The survey in a file that is well formed: its same-spot distance is 2^-52."""
    start, n, m, c, model, _, _ = struct.unpack(TRAILER, data[-TRAILER_LENGTH:])
    end = len(data) - TRAILER_LENGTH
    codes = list(data[end - c:end])
    numbers = iter(unpacked(data[start:end - c]))
    nugget, sill, span, r, t = (next(numbers) for _ in range(5))
    values, coords, external, nodes, node_external = ([next(numbers) for _ in range(count)] for count in lengths(n, m, codes.count(EXTERNAL)))
    return Survey(values, coords, codes, external, nodes, node_external, Variogram(model, nugget, sill, span, SAME_SPOT), r, t)


def read(data, areas):
    """The reader's number, and the survey that it read, whose lists the areas then begin with: "each list's length, after 16"."""
    if malformed(data):
        return 16, None
    survey = parsed(data)
    lists = survey[:6]
    if refusals.too_short([(area, len(items)) for area, items in zip(areas, lists)]):
        return 18, None
    for area, items in zip(areas, lists):
        area[:len(items)] = items
    return 0, survey
