"""Semivariograms that are answered: every dimension, number of samples and number of bins, usual numbers and edges."""
from tools.generators.calls import calculate_call
from tools.generators.draw import Draw, flat
from tools.generators.semivariogram_case import Case, enough, longer
from tools.generators.semivariogram_refusals import BASE
from tools.reading import edges
from tools.reading.case_older import BINS
from tools.reading.semivariogram import Samples


def plain(draw, d, n, bins, low=0.0, high=90.0):
    """Samples between two corners, as a survey has them."""
    coords = [round(draw.uniform(low, high), 2) for _ in range(n * d)]
    return Samples(d, [round(draw.uniform(20, 90), 2) for _ in range(n)], coords, bins)


def inside():
    """The small case of the other reading, and calls just inside the edges of the refusals, with areas just as long as they have to be."""
    many = BASE._replace(values=edges.spread(48), coords=edges.spread(96))
    two = BASE._replace(values=[1.0, 2.0], coords=edges.spread(4))
    for samples in [BINS, BASE, two, many, *(s._replace(bins=bins) for s in (BASE, two, many) for bins in (1, 64))]:
        yield Case(samples, enough(samples))


def each(draw):
    """Each number of bins, and each number of samples."""
    for bins in range(1, 65):
        samples = plain(draw, 1 + bins % 3, draw.choice([3, 5, 9, 12]), bins)
        yield Case(samples, longer(samples, draw))
    for n in range(2, 49):
        samples = plain(draw, 1 + n % 3, n, draw.choice([1, 2, 3, 7, 20]))
        yield Case(samples, longer(samples, draw))
    for d in (1, 2, 3):
        samples = plain(draw, d, 48, 64)
        yield Case(samples, longer(samples, draw))


def drawn(draw):
    """Calls as tools/reading/compare.py draws them."""
    for _ in range(160):
        samples = Samples(*calculate_call(draw))
        if samples.n < 25:
            yield Case(samples, longer(samples, draw))


def one_spot(draw):
    """All samples at one spot, at spots whose distances are zero by rounding, and all but one: the width is 0, or not."""
    for d in (1, 2, 3):
        for bins in (1, 2, 5, 64):
            spot = [[3.0] * d, [-0.0] * d, [4.7e6] * d][bins % 3]
            same = Samples(d, [2.0, 5.0, -1.0, 0.5], spot * 4, bins)
            near = same._replace(coords=flat([5e-324 * i] * d for i in range(4)))
            apart = same._replace(coords=same.coords[d:] + [x + 1.0 for x in spot])
            signs = same._replace(coords=flat([draw.choice([0.0, -0.0]) for _ in range(d)] for _ in range(4)))
            for samples in (same, near, apart, signs):
                yield Case(samples, longer(samples, draw))


def overflowing(draw):
    """Distances that are infinite, all of them or some: the width is then infinite, and every quotient a zero or a NaN."""
    for d in (1, 2, 3):
        for bins in (1, 3, 64):
            far = Samples(d, [1.0, 4.0, 9.0, 16.0], flat([x] * d for x in (0.0, 1e200, -1e200, 1.7e308)), bins)
            some = far._replace(coords=flat([x] * d for x in (0.0, 1.0, 5.0, 1e200)))
            large = far._replace(coords=flat([x] * d for x in (0.0, 1e150, -3e150, 2e153)))
            small = far._replace(coords=flat([x] * d for x in (0.0, 1e-160, 3e-160, -2e-155)))
            for samples in (far, some, large, small):
                yield Case(samples, longer(samples, draw))


def on_edges(draw):
    """Distances on the edges of bins, whole numbers of widths, and quotients that rounding moves to the other side of one."""
    for bins in range(1, 17):
        line = Samples(1, [float(i * i) for i in range(bins + 1)], [float(i) for i in range(bins + 1)], bins)
        tenths = line._replace(coords=[i / 10 for i in range(bins + 1)])
        third = line._replace(coords=[i * (1.0 / 3.0) for i in range(bins + 1)])
        for samples in (line, tenths, third):
            yield Case(samples, longer(samples, draw))
    for bins in (1, 2, 5, 10):
        plane = Samples(2, [1.0, 2.0, 4.0, 8.0, 16.0], [0.0, 0.0, 3.0, 4.0, 6.0, 8.0, -3.0, 4.0, 0.0, 5.0], bins)
        space = Samples(3, plane.values[:4], [0.0, 0.0, 0.0, 1.0, 2.0, 2.0, 2.0, 4.0, 4.0, 0.0, 0.0, 3.0], bins)
        for samples in (plane, space):
            yield Case(samples, longer(samples, draw))
    # the greatest distance over its own width: at, below and above the number of bins
    for _ in range(24):
        bins = draw.randrange(2, 65)
        samples = Samples(1, [1.0, 3.0, 10.0], [0.0, draw.random(), draw.uniform(1, 100)], bins)
        yield Case(samples, longer(samples, draw))


def edge_values(draw):
    """Values that are huge, subnormal, equal, or zeros of either sign: semivariances that overflow, are subnormal, or zero."""
    top = 1.7e308
    tuples = [[0.0, -0.0, 0.0, -0.0], [7.0] * 4, [top, -top, 0.0, 1.0], [1e154, -1e154, 1.3e154, 0.0], [5e-324, 0.0, 1e-323, -5e-324]]
    tuples += [[1e-160, 3e-160, -2e-161, 0.0], [2.0**-537, 0.0, -(2.0**-537), 2.0**-536], [1e-154, 2e-154, 0.0, -1e-154]]
    for values in tuples:
        for bins in (1, 2, 6):
            samples = Samples(2, values, [0.0, 0.0, 1.0, 0.0, 0.0, 4.0, 9.0, 9.0], bins)
            yield Case(samples, longer(samples, draw))
    for _ in range(40):
        low, high = draw.choice([(4.7e6, 4.71e6), (-20.0, 20.0), (0.0, 0.03)])
        samples = plain(draw, draw.choice([1, 2, 3]), draw.randrange(2, 9), draw.choice([1, 2, 5, 64]), low, high)
        values, coords = ([draw.edge() if draw.randrange(4) == 0 else x for x in xs] for xs in (samples.values, samples.coords))
        samples = draw.choice([samples._replace(values=values), samples._replace(coords=coords)])
        yield Case(samples, longer(samples, draw))


def accepted_cases():
    draw = Draw("nakwemol semivariogram")
    yield from inside()
    yield from each(draw)
    yield from drawn(draw)
    yield from one_spot(draw)
    yield from overflowing(draw)
    yield from on_edges(draw)
    yield from edge_values(draw)
