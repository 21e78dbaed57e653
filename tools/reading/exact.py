"""Paper 01, "Audit": f64 numbers as whole multiples of 2^-1074, so that sums of their products are Python's whole numbers."""
from tools.patterns import bits

ONE = 1 << 1074


def multiple(pattern):
    """"A finite f64 with exponent field e and 52-bit fraction f is a whole multiple of 2^-1074: f if e = 0, else (2^52 + f)·2^(e−1), signed"."""
    sign, e, f = pattern >> 63, pattern >> 52 & 2047, pattern & (1 << 52) - 1
    assert e != 2047
    magnitude = f if e == 0 else ((1 << 52) + f) << (e - 1)
    return -magnitude if sign else magnitude


def units(x):
    return multiple(bits(x))


def dot(xs, ys):
    """Σ x·y exactly, in units of 2^-2148."""
    return sum(units(x) * units(y) for x, y in zip(xs, ys, strict=True))
