"""A large grid by fewer nodes: for contour lines, for hovering, and for the picture.

A figure stands for its neighbours only where all of them passed. Where any of them failed, the place counts as failed: thinning may hide a
figure, never a failure.
"""
from array import array
from dataclasses import dataclass
from typing import List

MOST_NODES = 15000  # drawn and told one by one up to here


@dataclass
class Thinned:
    """The columns and rows of the grid that are kept, and of each kept node its number in the whole grid."""
    columns: List[int]
    rows: List[int]
    step: int

    def numbers(self, width):
        """Numbers of the kept nodes in a grid so many columns wide."""
        return [r * width + c for r in self.rows for c in self.columns]


def kept(count, step):
    """Every `step`th of `count`, and the last."""
    chosen = list(range(0, count, step))
    return chosen if chosen[-1] == count - 1 else chosen + [count - 1]


def thinned(columns, rows, most=MOST_NODES):
    """As many columns and rows as give at most about `most` nodes; all of them where that is enough."""
    step = 1
    while len(kept(columns, step)) * len(kept(rows, step)) > most:
        step += 1
    return Thinned(kept(columns, step), kept(rows, step), step)


def passed_nodes(verdict):
    """1 for every node that passed, else 0."""
    return bytes(verdict).translate(bytes([1]) + bytes(255))


def whole_squares(passed, width, thin):
    """1 for every square between kept nodes in which, corners and sides included, every node passed."""
    whole = bytearray()
    for south, north in zip(thin.rows, thin.rows[1:]):
        for west, east in zip(thin.columns, thin.columns[1:]):
            whole.append(all(0 not in passed[r * width + west:r * width + east + 1] for r in range(south, north + 1)))
    return whole


def blocks(kept_ones, count):
    """For each kept column or row the ones nearer to it than to another kept one: from, and past the end."""
    middles = [(a + b + 1) // 2 for a, b in zip(kept_ones, kept_ones[1:])]
    return list(zip([0] + middles, middles + [count]))


def block_verdicts(verdict, columns, rows, thin):
    """A verdict for each kept node's block: 0 if all of it passed, else the first other one in it."""
    found = bytearray()
    across = blocks(thin.columns, columns)
    for south, north in blocks(thin.rows, rows):
        for west, east in across:
            found.append(first_failure(verdict, columns, range(south, north), west, east))
    return found


def first_failure(verdict, columns, rows, west, east):
    for r in rows:
        left = bytes(verdict[r * columns + west:r * columns + east]).lstrip(b'\0')
        if left:
            return left[0]
    return 0


def deviations(variance):
    """Standard deviations; a variance that is no number above zero, or is past all numbers, stays as it is."""
    return array('d', (v ** 0.5 if v > 0 else v for v in variance))
