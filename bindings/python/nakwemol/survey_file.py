"""The survey file: its reader and its writer."""
import ctypes
from typing import NamedTuple

from nakwemol import calls
from nakwemol.fit import EXTERNAL_CODE, code_of, listed
from nakwemol.lists import flat, number
from nakwemol.refused import unless_0
from nakwemol.variogram import Variogram, VariogramModel

# No file is longer than this.
LONGEST = 65536


class Survey(NamedTuple):
    """What a survey file holds: lists without rows, as docs/REFERENCE.md, section 1, has them. Nothing about them is judged but their lengths."""

    values: list
    coords: list
    bases: list
    external: list
    nodes: list
    node_external: list
    variogram: Variogram
    regularization: float
    tolerance: float


def read_survey(data):
    """The survey of a file's bytes: version 1 with any number of wells, version 2 with 49 to 96. Raises Refused."""
    most = min(len(data), LONGEST)
    values, coords, external, nodes, node_external = (calls.area(most // 8) for _ in range(5))
    bases, model = calls.codes([0] * most), ctypes.c_uint8()
    counts, numbers = (ctypes.c_size_t * 3)(), (ctypes.c_double * 5)()
    unless_0(calls.call(
        "nakwemol_read",
        (ctypes.c_uint8 * len(data)).from_buffer_copy(data),
        values,
        coords,
        bases,
        external,
        nodes,
        node_external,
        *map(ctypes.byref, (counts, numbers, model)),
    ))
    n, m, c = counts
    nugget, sill, range_, regularization, tolerance = numbers
    codes = list(bases)[:c]
    k = codes.count(EXTERNAL_CODE)
    lists = [list(area)[:length] for area, length in ((values, n), (coords, 2 * n), (external, k * n), (nodes, 2 * m), (node_external, k * m))]
    variogram = Variogram(VariogramModel(model.value), nugget, sill, range_)
    return Survey(*lists[:2], codes, *lists[2:], variogram, regularization, tolerance)


def write_survey(survey):
    """The bytes of a survey's file, with no note: version 2 from 49 to 96 wells, else version 1; more are 16. Raises Refused."""
    file, length = calls.codes([0] * LONGEST), ctypes.c_size_t()
    codes = [code_of(basis) for basis in listed(survey.bases)]
    unless_0(calls.call(
        "nakwemol_write",
        calls.numbers(flat(survey.values, 1, "values")),
        calls.numbers(flat(survey.coords, 2, "coords")),
        calls.codes(codes),
        calls.numbers(flat(survey.external, 1, "external")),
        *survey.variogram.handed(),
        number(survey.regularization, "regularization"),
        calls.numbers(flat(survey.nodes, 2, "nodes")),
        calls.numbers(flat(survey.node_external, codes.count(EXTERNAL_CODE), "node_external")),
        number(survey.tolerance, "tolerance"),
        file,
        ctypes.byref(length),
    ))
    return bytes(file)[:length.value]
