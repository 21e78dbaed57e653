"""crates/vectors_ieee: answers of Rust's own functions on f64.

The roots are drawn here: the oracle answers them, whole numbers check them. ieee.rs asks Rust for them once more and adds the other functions.
"""
import math
import random
import subprocess

from tools.generators.records import files as made_files
from tools.oracle.oracle import ROOT, ask
from tools.patterns import NAN, bits, value, word

RANDOM = random.Random(20260818)
HIDDEN = 1 << 52
FRACTION = HIDDEN - 1


def beside(pattern):
    """A pattern of a number above zero with the two next to it."""
    return [p for p in (pattern - 1, pattern, pattern + 1) if 0 <= p <= 0x7FF0_0000_0000_0000]


def every_exponent():
    for exponent in range(2047):
        yield exponent << 52 | RANDOM.getrandbits(52)


def perfect_squares():
    for root in [1, 2, 3, 5, 7, 10, 11, 4095, 4096, 65535, 94906265, 94906266, 67108863, 67108864]:
        yield from beside(bits(float(root * root)))
    for _ in range(90):
        root = RANDOM.randrange(1, 1 << 26)
        yield from beside(bits(math.ldexp(float(root * root), 2 * RANDOM.randrange(-480, 480))))


def midpoints():
    """Just below and above the square of a number half-way between two roots, for both parities of the exponent."""
    for _ in range(480):
        low = RANDOM.randrange(HIDDEN, 2 * HIDDEN) if RANDOM.randrange(4) else 2 * HIDDEN - 1 - RANDOM.randrange(8)
        square = (2 * low + 1) ** 2  # 4 times the square of low + 1/2
        shift = square.bit_length() - 53
        exponent = 2 * RANDOM.randrange(-480, 480)
        for significand in (square >> shift, (square >> shift) + 1):
            yield bits(math.ldexp(float(significand), exponent + shift - 106))


def largest_roots():
    """The largest numbers whose root still is below a power of two, and the smallest at or above it."""
    for exponent in range(-1074, 1024, 23):
        yield from beside(bits(math.ldexp(1.0, exponent)))


def subnormals():
    for place in range(52):
        low = 1 << place
        yield low
        yield low | RANDOM.getrandbits(place) if place else low
        yield 2 * low - 1
    for root in range(1, 40):
        yield from beside(root * root)


def special():
    yield from [0x0000_0000_0000_0000, 0x8000_0000_0000_0000, 0x7FF0_0000_0000_0000, 0xFFF0_0000_0000_0000, NAN]
    yield from [0x7FEF_FFFF_FFFF_FFFF, 0x0000_0000_0000_0001, 0x000F_FFFF_FFFF_FFFF, 0x0010_0000_0000_0000]
    for pattern in [0x8000_0000_0000_0001, 0x800F_FFFF_FFFF_FFFF, 0x8010_0000_0000_0000, 0xFFEF_FFFF_FFFF_FFFF]:
        yield pattern
    for _ in range(40):
        yield 1 << 63 | RANDOM.randrange(2047) << 52 | RANDOM.getrandbits(52)


def nearest_root(pattern):
    """A second witness: the root by whole numbers, with no operation on floats."""
    x = value(pattern)
    if x != x or x < 0:
        return NAN
    if x == 0 or math.isinf(x):
        return pattern
    exponent, fraction = pattern >> 52, pattern & FRACTION
    significand, power = (fraction, -1074) if exponent == 0 else (HIDDEN | fraction, exponent - 1075)
    shift = 120 - significand.bit_length()
    shift += (power - shift) % 2
    whole = math.isqrt(significand << shift)  # the root is whole * 2^((power - shift) / 2), and a bit more
    extra = whole.bit_length() - 53
    rounded = (whole + (1 << (extra - 1))) >> extra  # a root is never half-way
    return bits(math.ldexp(float(rounded), (power - shift) // 2 + extra))


def roots():
    """Lines `<pattern in> <pattern out>`."""
    inputs = []
    for group in (special, subnormals, perfect_squares, midpoints, largest_roots, every_exponent):
        inputs.extend(group())
    inputs = list(dict.fromkeys(inputs))
    for pattern, root in zip(inputs, ask([f"sqrt {word(p)}" for p in inputs])):
        assert int(root, 16) == nearest_root(pattern), word(pattern)
        yield f"{word(pattern)} {root}\n"


def files():
    program = ROOT / "target" / "generators" / "ieee"
    program.parent.mkdir(parents=True, exist_ok=True)
    subprocess.run(["rustc", "-O", ROOT / "tools" / "generators" / "ieee.rs", "-o", program], check=True)
    answers = subprocess.run([program], input="".join(roots()).encode(), stdout=subprocess.PIPE, check=True).stdout
    return made_files([answers[at:at + 64] for at in range(0, len(answers), 64)])
