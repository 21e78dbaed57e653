"""crates/vectors_exponential: numbers u, and between what e^−u has to lie: within 2^-50 of the exact value.

A record is three little-endian words of 64 bits: the pattern of u, and the patterns of the least and the greatest f64 that are within 2^-50 of e^−u; where
the least would be below zero it is +0. The bounds come from whole numbers: the series of e^−u, cut off where no digit of them can change. A NaN has a NaN for
both, and so has a number below zero; an infinite u has 0.
"""
import math
import random
from fractions import Fraction

from tools.generators.records import files as made_files, packed
from tools.patterns import NAN, bits, value

RANDOM = random.Random(20261116)
INFINITY = 0x7FF0_0000_0000_0000
MINUS = 1 << 63
LARGEST = INFINITY - 1
DIGITS = 300
WITHIN = Fraction(1, 2**50)


def powered(u):
    """Two fractions with e^−u between them, u from 0 to 1000: e^−(u / 2^10) taken to the power 2^10. The bounds of that, which are the series cut off at an odd
    and at an even power, are rounded to DIGITS digits, and so is each square."""
    part, one = u / 1024, 2**DIGITS
    term, total, last, i = Fraction(1), Fraction(1), Fraction(0), 0
    while abs(term) * one > Fraction(1, 8) or i % 2:
        i += 1
        term *= -part / i
        last, total = total, total + term
    low, high = math.floor(min(last, total) * one), math.ceil(max(last, total) * one)
    for _ in range(10):
        low, high = low * low // one, -(-high * high // one)
    return Fraction(low, one), Fraction(high, one)


def bracket(u):
    """Two fractions with e^−u between them, so close that they give the same bounds."""
    if u < Fraction(1, 2**60):
        return 1 - u, 1 - u + u * u / 2
    return powered(u) if u <= 1000 else (Fraction(0), Fraction(1, 2**1400))


def at_least(x):
    """The pattern of the least f64 that is not below a fraction, and not below zero."""
    if x <= 0:
        return 0
    near = bits(float(x))
    return near if Fraction(value(near)) >= x else near + 1


def at_most(x):
    """The pattern of the greatest f64 that is not above a fraction above zero."""
    near = bits(float(x))
    return near if Fraction(value(near)) <= x else near - 1


def bounds(pattern):
    u = value(pattern)
    if u != u or u < 0.0:
        return NAN, NAN
    if math.isinf(u):
        return 0, 0
    low, high = bracket(Fraction(u))
    least, greatest = {at_least(low - WITHIN), at_least(high - WITHIN)}, {at_most(low + WITHIN), at_most(high + WITHIN)}
    assert len(least) == 1 == len(greatest), u
    return least.pop(), greatest.pop()


def beside(pattern):
    """A pattern with the two next to it."""
    return [pattern - 1, pattern, pattern + 1] if pattern else [0, 1]


def numbers():
    yield from [0, MINUS, 1, 2, 0x000F_FFFF_FFFF_FFFF, 0x0010_0000_0000_0000, bits(1e-300), bits(1e300), LARGEST - 1, LARGEST, INFINITY, NAN]
    yield from (bits(x) for x in (-5e-324, -2.0**-57, -1.0, -35.0, -1e300, -math.inf))
    for power in range(-70, 11):
        yield from beside(bits(2.0**power))
    for i in range(1, 513):
        yield from beside(bits(i / 512))
    for k in range(1, 60):
        yield from beside(bits(float(k)))
        yield from (bits(k + i / 512) for i in RANDOM.sample(range(1, 512), 4))
    # just below a 512th the short series is longest
    for _ in range(300):
        yield bits(math.nextafter(RANDOM.randrange(1, 35 * 512) / 512, 0.0))
    for _ in range(600):
        yield bits(RANDOM.uniform(0, 36))
    for _ in range(400):
        yield bits(RANDOM.random() * 2.0**RANDOM.randrange(-60, 7))
    for _ in range(100):
        yield bits(RANDOM.uniform(35, 1e6))
        yield RANDOM.randrange(0x4041_8000_0000_0000, INFINITY)


def files():
    return made_files([packed([u, *bounds(u)]) for u in dict.fromkeys(numbers())])
