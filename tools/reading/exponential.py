"""Slip 1: e^−u for an f64 u, worked out by Python's whole numbers from the definition in crates/exponential/specs/Exponential.antt."""
import math
from fractions import Fraction
from functools import cache

from tools.reading.exact import units

ONE = 2**62
CUT = 35.0


@cache
def nearest(a, d, last):
    """The whole multiple of 2^-62 nearest the sum Σ (−a/d)^i / i! that ends at the power `last`."""
    total = sum(Fraction(-a, d)**i / math.factorial(i) for i in range(last + 1))
    return math.floor(total * ONE + Fraction(1, 2))


def fraction(i):
    """"A table holds e^−(i/512) for i from 0 to 511 as whole multiples of 2^-62"."""
    return nearest(i, 512, 23)


def whole(k):
    """The same for e^−k, k from 0 to 34."""
    return nearest(k, 1, 151)


def times(a, b):
    return a * b // ONE


def short_series(f):
    """1 − f + f²/2 − f³/6 + f⁴/24 − f⁵/120 for an f below 1/512."""
    f2 = times(f, f)
    f3 = times(f, f2)
    return ONE + f2 // 2 + times(f2, f2) // 24 - (f + f3 // 6 + times(f2, f3) // 120)


def exp_neg(u):
    """e^−u. "An infinite u gives 0; a NaN gives NaN"; −0 counts as 0, and below zero it is a NaN; from 35 on it is 0."""
    if u >= CUT:
        return 0.0
    if not u >= 0.0:
        return math.nan
    # u in multiples of 2^-57: 35 wholes, 512ths of each, and what is left
    w = units(abs(u)) >> 1017
    parts = times(whole(w >> 57), fraction(w >> 48 & 511)), short_series((w & (1 << 48) - 1) << 5)
    return math.ldexp(float((times(*parts) + 256) // 512), -53)
