"""Paper 01, "Lists": a survey, and its counts."""
from typing import NamedTuple

from tools.reading.variogram import Variogram

CONSTANT, LINEAR, QUADRATIC, EXTERNAL = 1, 2, 3, 4
COLUMNS = {CONSTANT: 1, LINEAR: 3, QUADRATIC: 6, EXTERNAL: 1}


class Survey(NamedTuple):
    """"n well values; coordinates x, y in turn, 2n numbers; basis codes [..]. External values are k·n numbers, column after column. The m nodes
    are 2m numbers; node externals k·m, node after node, ignored if k = 0. Nugget, sill, range, regularisation r and tolerance t are f64"."""

    values: list
    coords: list
    codes: list
    external: list
    nodes: list
    node_external: list
    variogram: Variogram
    r: float
    t: float

    @property
    def n(self):
        return len(self.values)

    @property
    def m(self):
        return len(self.nodes) // 2

    @property
    def k(self):
        """"k the count of code 4"."""
        return self.codes.count(EXTERNAL)

    @property
    def p(self):
        """"giving 1, 3, 6, 1 columns; p is their sum". A code that is none of the four gives none."""
        return sum(COLUMNS.get(code, 0) for code in self.codes)

    @property
    def s(self):
        """"Size s = n + p"."""
        return self.n + self.p

    def well(self, i):
        return self.coords[2 * i:2 * i + 2]

    def well_externals(self, i):
        return [self.external[column * self.n + i] for column in range(self.k)]

    def node(self, q):
        return self.nodes[2 * q:2 * q + 2]

    def node_externals(self, q):
        return self.node_external[q * self.k:(q + 1) * self.k]

    def judged(self):
        """Every number that has to be finite: "nugget, sill, range, a value, coordinate, external, node or, if k > 0, node external"."""
        taken = self.node_external if self.k > 0 else []
        return [*self.variogram.numbers(), *self.values, *self.coords, *self.external, *self.nodes, *taken]
