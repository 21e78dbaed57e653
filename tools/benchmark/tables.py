"""The measurements as tables."""
from typing import NamedTuple

SIZES, COLUMNS, NODES = (12, 24, 48, 96), (1, 3, 6), (1, 25, 100)
TYPES = {1: "Ordinary", 2: "Universal"}
PARTS = [(12, 1, 25), (48, 1, 100), (48, 6, 100), (96, 1, 100)]
MODELS = {"2": "Exponential", "3": "Gaussian"}


class Measured(NamedTuple):
    """A ratio, port to original, with its spread, and what a call of each takes in µs."""
    ratio: float
    low: float
    high: float
    original: float
    port: float

    def shown(self):
        return f"{self.ratio:.2f} ({self.low:.2f}–{self.high:.2f})"

    def times(self):
        return f"{time(self.original)} / {time(self.port)}"


def time(microseconds):
    """Three figures of a time in µs."""
    return f"{microseconds:.0f}" if microseconds >= 100 else f"{microseconds:.3g}"


def nanoseconds(count):
    """A difference of times that lies within their noise is not told from 0."""
    return "under 1 ns" if count < 1 else f"{count:.1f} ns"


def table(head, rows):
    return [line(head), line("---" for _ in head), *map(line, rows)]


def line(cells):
    return "| " + " | ".join(map(str, cells)) + " |"


def fits(figures):
    rows = []
    for n in SIZES:
        for p in COLUMNS:
            row = [figures["fit", str(n), str(p), str(m)] for m in NODES]
            rows.append([n, p, *(cell.shown() for cell in row), row[-1].times()])
    return table(["n", "p", *(f"m = {m}" for m in NODES), "µs at m = 100, original / port"], rows)


def interpolations(figures):
    rows = []
    for code, name in TYPES.items():
        for n in SIZES:
            row = [figures["interpolate", str(n), str(m), str(code)] for m in NODES]
            rows.append([name, n, *(cell.shown() for cell in row), row[-1].times()])
    return table(["type", "n", *(f"m = {m}" for m in NODES), "µs at m = 100, original / port"], rows)


def semivariograms(figures):
    rows = [(n, figures["semivariogram", str(n)]) for n in SIZES]
    return table(["n", "ratio", "µs, original / port"], [(n, cell.shown(), cell.times()) for n, cell in rows])


def beside_spherical(figures, key, side):
    """How many times as long as the same fit with a Spherical model takes."""
    return getattr(figures[key], side) / getattr(figures["model", "1", *key[2:]], side)


def models(figures):
    """Fits with the models by e^−u: µs, and in times of the Spherical one, of either side; and one e^−u."""
    rows = []
    for key in figures:
        if key[0] == "model" and key[1] in MODELS:
            times = [f"{beside_spherical(figures, key, side):.2f}" for side in ("original", "port")]
            rows.append([", ".join(key[2:]), MODELS[key[1]], figures["model", "1", *key[2:]].times(), figures[key].times(), *times])
    return table(["n, p, m", "model", "µs with Spherical, original / port", "µs, original / port", "times Spherical, original", "times Spherical, port"], rows)


def one_power(figures, side):
    """One e^−u, in ns."""
    (key,) = (key for key in figures if key[0] == "powers")
    return 1000 * getattr(figures[key], side) / int(key[1])


def growth(figures):
    """How the time of a fit grows: µs of original and port."""
    rows = [[f"{axis[-1]} = {key[1] if axis == 'growth-n' else key[3]}", *(figures[key[0], key[1], p, key[3]] for p in "16")]
            for axis in ("growth-n", "growth-m") for key in figures if key[0] == axis and key[2] == "1"]
    return table(["", "p = 1, µs original / port", "ratio", "p = 6, µs original / port", "ratio"],
                 [[name, one.times(), f"{one.ratio:.2f}", six.times(), f"{six.ratio:.2f}"] for name, one, six in rows])


class Parts:
    """The parts of one fit, in µs, by differences of fits that leave something out (tools/benchmark/inputs.rs)."""

    def __init__(self, figures, n, p, m):
        self.n, self.p, self.m = n, p, m
        self.taken = {key[4:] + key[3:4]: value for key, value in figures.items() if key[:3] == ("part", str(n), str(p))}

    def kind(self, name, m, side):
        """A fit of that kind with m nodes: its time, and how many rows its audits look at."""
        (rows, value), = ((int(key[1]), value) for key, value in self.taken.items() if key[0] == name and key[2] == str(m))
        return getattr(value, side), rows

    def row(self):
        """One row of the audit by exact sums: what a fit that looks at all of them so takes longer than one that mostly stops at the first."""
        (exact, rows), (first, fewer) = self.kind("exact", self.m, "port"), self.kind("first-row", self.m, "port")
        return (exact - first) / (rows - fewer)

    def audit(self):
        """All rows of a whole fit, which sums with rounding show to be met: what it takes longer than a fit without any."""
        first, fewer = self.kind("first-row", self.m, "port")
        return self.kind("whole", self.m, "port")[0] - (first - fewer * self.row())

    def shown_row(self):
        """One row that sums with rounding show to be met."""
        return self.audit() / self.kind("whole", self.m, "port")[1]

    def refusals(self):
        return self.kind("refused", self.m, "port")[0]

    def elimination(self, side):
        """A fit without nodes, less one that stops at its first step. The port's has the trend with it, p sums of n products."""
        return self.kind("whole", 0, side)[0] - self.kind("stopped", 0, side)[0]

    def assembly(self, side):
        """Up to the elimination's first step, less the refusals, where they are a part."""
        return self.kind("stopped", 0, side)[0] - (self.refusals() if side == "port" else 0)

    def whole(self, side):
        return self.kind("whole", self.m, side)[0]

    def nodes(self, side):
        """b, z, figure and variance of every node: what is left."""
        audit = self.audit() + self.refusals() if side == "port" else 0
        return self.whole(side) - self.assembly(side) - self.elimination(side) - audit

    def entries(self, side):
        """How many entries between two wells are worked out: the original's each way, the port's once, and then mirrored."""
        pairs = self.n * (self.n - 1) // 2
        return pairs if side == "port" else 2 * pairs

    def root(self, side):
        """One root, in ns: wells so close that the variogram takes no time, less wells in one place, whose roots are of 0."""
        return 1000 * (self.kind("near", 0, side)[0] - self.kind("one-place", 0, side)[0]) / self.entries(side)

    def entry(self, side):
        """One entry of the matrix between two wells, in ns: the distance with its root, and the variogram, and its place in the matrix."""
        return 1000 * self.assembly(side) / self.entries(side)


def parts(figures, shown=time):
    """What the parts of a fit take: µs, or what else the figures are."""
    rows = []
    for sizes in PARTS:
        made = Parts(figures, *sizes)
        for side in ("original", "port"):
            port = side == "port"
            cells = [made.refusals() if port else None, made.assembly(side), made.elimination(side), made.nodes(side), made.audit() if port else None]
            rows.append([", ".join(map(str, sizes)), side, *("" if cell is None else shown(cell) for cell in cells), shown(made.whole(side))])
    return table(["n, p, m", "", "refusals", "F and matrix", "elimination", "b, z, figure, variance", "audit", "whole"], rows)


def small(figures):
    """One root, one exact product, one row of an audit and one elimination."""
    of = {(n, p): Parts(figures, n, p, m) for n, p, m in [(12, 1, 25), (24, 1, 100), (48, 1, 100), (24, 6, 100), (48, 6, 100), (96, 1, 100)]}
    at = of[48, 1]
    product = 1000 * (of[48, 6].row() - of[24, 6].row()) / 24
    rows = [["one root", nanoseconds(at.root("original")), nanoseconds(at.root("port"))],
            ["one e^−u", *(nanoseconds(one_power(figures, side)) for side in ("original", "port"))],
            ["one entry of the matrix: distance, root, variogram", nanoseconds(at.entry("original")), nanoseconds(at.entry("port"))],
            ["one exact product", "", nanoseconds(product)],
            ["one row of an audit of 48 wells that sums with rounding show, p = 6", "", f"{1000 * of[48, 6].shown_row():.0f} ns"],
            ["one such row by exact sums", "", f"{1000 * of[48, 6].row():.0f} ns"],
            ["what is no product in it", "", f"{1000 * of[48, 6].row() - 48 * product:.0f} ns"]]
    for n in SIZES:
        original, port = of[n, 1].elimination("original"), of[n, 1].elimination("port")
        rows.append([f"one elimination of {n + 1} rows", f"{time(original)} µs", f"{time(port)} µs, ratio {port / original:.2f}"])
    return table(["", "original", "port"], rows)


def comparisons(figures):
    """A comparison of two exact sums by the place of the highest word that differs, beside that of equal sums."""
    made = {int(key[1]): cell for key, cell in figures.items() if key[0] == "compare"}
    rows = [[place, 67 - place, f"{1000 * cell.port:.1f} ns", cell.shown()] for place, cell in made.items()]
    equal = sorted(1000 * cell.original for cell in made.values())[len(made) // 2]
    return table(["place of the highest differing word", "words", "time", "in times of equal sums"], [*rows, ["equal", 67, f"{equal:.1f} ns", ""]])


def worst(figures, wanted):
    """The greatest ratio of the cases that are wanted, and which it is."""
    key = max(filter(wanted, figures), key=lambda key: figures[key].ratio)
    return figures[key].ratio, " ".join(key)


def of_96(key):
    return key[0] == "fit" and key[1] == "96" and key[3] == "100"


def goals(figures):
    """The goals beside what was reached: of several cases the worst."""
    asked = [("a fit of n = 48, m = 100, p = 1", 1.2, lambda key: key == ("fit", "48", "1", "100")),
             ("a fit of n = 48, m = 100, p = 6", 1.5, lambda key: key == ("fit", "48", "6", "100")),
             ("a fit of n = 96, m = 100", 1.1, of_96),
             ("a fit of the other sizes", 1.5,
              lambda key: key[0] == "fit" and not of_96(key) and key not in {("fit", "48", "1", "100"), ("fit", "48", "6", "100")}),
             ("interpolation", 1.2, lambda key: key[0] == "interpolate"),
             ("semivariogram", 1.5, lambda key: key[0] == "semivariogram")]
    rows = []
    for name, most, wanted in asked:
        ratio, case = worst(figures, wanted)
        met = sum(figures[key].ratio <= most for key in filter(wanted, figures))
        rows.append([name, f"{most}", f"{ratio:.2f}", case, f"{met} of {sum(map(wanted, figures))}", "" if ratio <= most else f"{ratio - most:.2f}"])
    slower = {key: beside_spherical(figures, key, "port") for key in figures if key[0] == "model" and key[1] in MODELS}
    key = max(slower, key=slower.get)
    rows.append(["a fit with an Exponential or a Gaussian model, in times of one with a Spherical", "2", f"{slower[key]:.2f}", " ".join(key),
                 f"{sum(times <= 2 for times in slower.values())} of {len(slower)}", "" if slower[key] <= 2 else f"{slower[key] - 2:.2f}"])
    for name, most, taken in (("one root", 50, Parts(figures, 48, 1, 100).root("port")), ("one e^−u", 60, one_power(figures, "port"))):
        rows.append([name, f"{most} ns", f"{taken:.0f} ns", "", "1 of 1" if taken < most else "0 of 1", "" if taken < most else f"{taken - most:.0f} ns"])
    return table(["goal", "at most", "reached, the worst", "which (call, then n, p, m as far as it has them)", "met", "missed by"], rows)


def blocks(figures):
    """The tables of docs/SPEED.md, by the names of their blocks."""
    makers = [goals, fits, models, interpolations, semivariograms, growth, parts, small, comparisons]
    return {make.__name__: make(figures) for make in makers}
