"""crates/vectors_variogram: variograms and distances of the original.

A record is nine little-endian words of 64 bits: what is called, seven numbers, and the original's answer.

    1 to 4       Variogram::evaluate, Spherical, Exponential, Gaussian and Linear: nugget, sill, range, h, 0, 0, same-spot distance
    11, 12, 13   calculate_distance over 1, 2 and 3 axes: three numbers of each point, zeros for those not taken, 0
    20, 21       squared_distance_2d, and its root: ax, ay, bx, by, 0, 0, 0

The same-spot distance of the original is 2^-52; for others the answer is its second build's (variogram_spots.py). Exponential and Gaussian are those of
the original running the port's e^−u. Every variogram is held to tools/reading, which works e^−u out by its own.
"""
import math
import random

from tools.generators.records import files as made_files, packed
from tools.generators.variogram_spots import covered, spot_calls
from tools.oracle.oracle import ask
from tools.patterns import NAN, bits, value, word, words
from tools.reading.variogram import EXPONENTIAL, GAUSSIAN, Variogram

RANDOM = random.Random(20260819)
EPSILON = 0x3CB0_0000_0000_0000
INFINITY = 0x7FF0_0000_0000_0000
MINUS = 1 << 63
LARGEST = INFINITY - 1

PLAIN = [bits(x) for x in (0.0, 0.1, 0.25, 0.5, 1.0, 1.5, 2.0, 3.0, 10.0, 1000.0, 4725310.25)]
ODD = [MINUS, 1, 2, 0x000F_FFFF_FFFF_FFFF, 0x0010_0000_0000_0000, EPSILON, LARGEST, LARGEST - 1, bits(1e-300), bits(1e300)]
NOT_FINITE = [INFINITY, INFINITY | MINUS, NAN]


def any_number():
    return RANDOM.getrandbits(1) << 63 | RANDOM.randrange(2047) << 52 | RANDOM.getrandbits(52)


def number():
    """A number that is plain, random, at an edge, or, seldom, not finite."""
    kind = RANDOM.randrange(20)
    if kind < 8:
        return RANDOM.choice(PLAIN)
    if kind < 13:
        return bits(RANDOM.uniform(-10, 1000))
    if kind < 16:
        return RANDOM.choice(ODD) ^ (RANDOM.getrandbits(1) << 63)
    if kind < 19:
        return any_number()
    return RANDOM.choice(NOT_FINITE)


def beside(pattern):
    """A pattern with the two next to it in the order of patterns."""
    return [(pattern + step) % (1 << 64) for step in (-1, 0, 1)]


def distances_for(range_bits):
    """Distances worth trying at a range: about it, about 2^-52, within it, and anything."""
    span = value(range_bits)
    some = beside(range_bits) + beside(EPSILON) + [0, MINUS, INFINITY, NAN, LARGEST, bits(-1.0)]
    some += [bits(span * RANDOM.uniform(0, 1.2)) for _ in range(6)] + [bits(RANDOM.uniform(0, 3)), number()]
    return some


def variograms():
    ranges = PLAIN + ODD + [r ^ MINUS for r in PLAIN + ODD] + NOT_FINITE
    for model in (1, 4):
        for fixed in ranges:
            for h in RANDOM.sample(distances_for(fixed), 8):
                yield model, [number(), number(), fixed, h]
        for _ in range(700 if model == 1 else 500):
            span = number()
            yield model, [number(), number(), span, RANDOM.choice(distances_for(span))]
        for _ in range(800 if model == 1 else 400):
            span = 10 ** RANDOM.uniform(-3, 6)
            nugget, sill, h = RANDOM.uniform(0, 2), RANDOM.uniform(0, 20), span * RANDOM.uniform(0, 1.2)
            yield model, [bits(nugget), bits(sill), bits(span), bits(h)]


def powers(model, span):
    """Distances at which u of e^−u is what it turns on: 0 and subnormal, beside 2^-57, 512ths and whole numbers, about 35, far past it and infinite."""
    wanted = [0.0, 5e-324, 2.0**-1022, 2.0**-58, 2.0**-57, 2.0**-48, 1.0, 2.0, 17.0, 34.0, 35.0, 36.0, 700.0, 1e300]
    wanted += [RANDOM.randrange(1, 513) / 512 for _ in range(6)] + [RANDOM.uniform(0, 1), RANDOM.uniform(0, 40), RANDOM.expovariate(0.3)]
    reach = value(span)
    for u in wanted:
        h = u * reach if model == EXPONENTIAL else math.sqrt(u) * abs(reach)
        yield RANDOM.choice(beside(bits(abs(h))))


def by_exponential():
    """The two models by e^−u, with the same ranges; a sixth of the ranges have each distance of `powers`."""
    ranges = PLAIN + ODD + [r ^ MINUS for r in PLAIN + ODD] + NOT_FINITE
    for model in (EXPONENTIAL, GAUSSIAN):
        for fixed in ranges:
            for h in RANDOM.sample(distances_for(fixed), 3):
                yield model, [number(), number(), fixed, h]
        for fixed in PLAIN[1:] + ODD[-2:]:
            for h in powers(model, fixed):
                yield model, [bits(RANDOM.choice([0.0, 0.1, 2.5])), bits(RANDOM.choice([0.0, 1.0, 2.25])), fixed, h]
        for _ in range(150):
            span = 10 ** RANDOM.uniform(-3, 6)
            h = span * (RANDOM.expovariate(0.5) if model == EXPONENTIAL else RANDOM.expovariate(1))
            yield model, [bits(RANDOM.uniform(0, 2)), bits(RANDOM.uniform(0, 20)), bits(span), bits(h)]


def coordinate():
    kind = RANDOM.randrange(10)
    if kind < 4:
        return bits(round(RANDOM.uniform(4e6, 5e6), 2))
    if kind < 6:
        return bits(float(RANDOM.randrange(-5, 6)))
    return number()


def near(pattern):
    """The same number, one beside it, or another."""
    kind = RANDOM.randrange(6)
    if kind == 0:
        return pattern
    if kind == 1:
        return RANDOM.choice(beside(pattern))
    if kind == 2:
        return bits(value(pattern) + RANDOM.choice([1e-200, 1e-160, 1e-8, 0.125, 1e150]))
    return coordinate()


def pairs(axes):
    big, tiny = LARGEST, 1
    for a, b in ((big, big ^ MINUS), (tiny, MINUS | tiny), (0, MINUS), (MINUS, 0), (0, 0), (bits(1e160), 0), (bits(1e-170), 0)):
        yield [a] * axes, [b] * axes
    while True:
        a = [coordinate() for _ in range(axes)]
        yield a, [near(x) for x in a]


def distances():
    for kind, axes, count in ((11, 1, 150), (12, 2, 200), (13, 3, 250), (20, 2, 400), (21, 2, 500)):
        for _, (a, b) in zip(range(count), pairs(axes)):
            rest = [0] * (3 - axes)
            yield kind, a + rest + b + rest if kind < 20 else a + b


def call(kind, numbers, field):
    if kind < 10:
        named = "" if field == EPSILON else f"below {word(field)} "
        return f"{named}evaluate {kind} {words(numbers)}"
    if kind < 20:
        axes = kind - 10
        return f"distance {axes} {words(numbers[:axes])} {words(numbers[3:3 + axes])}"
    return f"distance2 {words(numbers)}"


def hold(kind, numbers, field, answer):
    """Stops where the reading's variogram is another."""
    if kind < 10:
        nugget, sill, span, h = map(value, numbers)
        read = word(bits(Variogram(kind, nugget, sill, span, value(field)).evaluate(h)))
        assert answer == read, (kind, words(numbers), word(field), answer, read)


def nine_words(kind, numbers, field, answer):
    hold(kind, numbers, field, answer)
    taken = answer.split()[-1 if kind == 21 else 0]
    return packed([kind, *numbers, *[0] * (6 - len(numbers)), field, int(taken, 16)])


def with_own_field():
    """Those with the original's own same-spot distance; a distance has none."""
    for kind, numbers in [*variograms(), *distances(), *by_exponential()]:
        yield kind, [NAN if value(n) != value(n) else n for n in numbers], EPSILON if kind < 10 else 0


def files():
    spots = spot_calls()
    calls = [*with_own_field(), *((model, numbers, field) for model, *numbers, field in spots)]
    answers = ask([call(*c) for c in calls])
    covered(spots, [int(answer, 16) for answer in answers[-len(spots):]])
    return made_files([nine_words(*c, answer) for c, answer in zip(calls, answers)])
