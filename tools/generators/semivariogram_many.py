"""Semivariograms of 49 to 96 samples: each number of them and of bins, over one, two and three axes; and 97 samples, refused. The number that a refused one
has to give stands here, apart from the reading's."""
import math

from tools.generators.draw import Draw, flat
from tools.generators.semivariogram_case import Case, enough, longer
from tools.generators.semivariogram_cases import plain
from tools.reading import edges
from tools.reading.semivariogram import Areas, Samples

COUNTS = (49, 60, 95, 96)


def accepted_cases(draw):
    for bins in range(1, 65):
        samples = plain(draw, 1 + bins % 3, COUNTS[bins % 4], bins)
        yield Case(samples, longer(samples, draw))
    for n in range(49, 97):
        samples = plain(draw, 1 + n % 3, n, draw.choice([1, 2, 3, 7, 20]))
        yield Case(samples, longer(samples, draw))
    for d in (1, 2, 3):
        for bins in (1, 64):
            samples = plain(draw, d, 96, bins, 4.70e6, 4.71e6)
            yield Case(samples, enough(samples))
    # every pair in one bin: all at one spot, and one far away
    same = Samples(2, edges.spread(96), [3.0] * 192, 5)
    yield Case(same, longer(same, draw))
    line = Samples(1, edges.spread(96), [float(i) for i in range(95)] + [1e200], 64)
    yield Case(line, longer(line, draw))
    grid = Samples(2, edges.spread(96), flat([float(i % 12), float(i // 12)] for i in range(96)), 13)
    yield Case(grid, longer(grid, draw))


def many(n, **fields):
    return Samples(2, edges.spread(n), edges.spread(2 * n), 5)._replace(**fields)


def refused_cases():
    """97 samples: 9, with 11 and 18 and both, and what counts earlier; 96 with areas for one bin less, and for one."""
    none, bad = Areas(0, 0, 0), [math.nan] * 97
    yield from (Case(many(97, values=values), lent, number=9) for values in (edges.spread(97), bad) for lent in (Areas(5, 5, 5), none))
    yield from (Case(many(97, d=d, coords=edges.spread(97 * d)), Areas(5, 5, 5), number=9) for d in (1, 3))
    for fields, number in (({"d": 4}, 13), ({"coords": edges.spread(193)}, 1), ({"bins": 0}, 15), ({"bins": 65}, 15)):
        yield from (Case(many(97, values=values, **fields), none, number=number) for values in (edges.spread(97), bad))
    yield from (Case(many(n), none, number=9) for n in (98, 108, 144, 192))
    yield from (Case(many(96, bins=64), Areas(*lengths), number=18) for lengths in ((63, 64, 64), (64, 63, 64), (64, 64, 63), (0, 0, 0)))
    yield Case(many(96, values=[*edges.spread(95), math.inf]), none, number=11)


def many_cases():
    yield from accepted_cases(Draw("nakwemol semivariogram, ninety-six wells"))
    yield from refused_cases()
