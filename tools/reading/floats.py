"""Operations on f64 that Python's floats do not have as IEEE 754 has them. Its + − × round once each, as they stand."""
import math


def is_finite(x):
    return math.isfinite(x)


def all_finite(xs):
    return all(math.isfinite(x) for x in xs)


def div(a, b):
    """a / b, where Python raises at b = 0 too."""
    if b != 0.0:
        return a / b
    if a == 0.0 or a != a:
        return math.nan
    return math.copysign(math.inf, math.copysign(1.0, a) * math.copysign(1.0, b))


def root(x):
    """"the f64 nearest the exact root [..]; infinity gives infinity", of a number that is not below zero."""
    return math.sqrt(x)


def running_sum(terms, start=0.0):
    """The terms added in turn, from `start`."""
    total = start
    for term in terms:
        total = total + term
    return total


def clamped(variance):
    """"minus zero, anything below zero and NaN become +0"."""
    return variance if variance > 0.0 else 0.0
