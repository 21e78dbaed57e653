"""crates/vectors_exact: sums of products of f64 and, by Python's whole numbers, their 67 words.

A finite f64 is read by its bits as a whole number of 2^-1074, as paper 01 says it; what is not finite counts as 0.
The vectors: extreme, subnormal and zero operands of both signs, infinities and NaNs, sums that cancel to 0, to one
unit and to minus one unit (a borrow or a carry that runs through every word), words that are all ones, and sums of
random patterns. Then dot products with a column of rows of every width, at and past the end of the list.
Each sum is also compared with the one before it.
"""
import random
import struct

from tools.patterns import bits, value
from tools.reading.exact import multiple
from tools.reading.floats import running_sum

MOD = 1 << 4288


def units(pattern):
    return 0 if pattern >> 52 & 2047 == 2047 else multiple(pattern)


def words(z):
    z %= MOD
    return [z >> (64 * i) & ((1 << 64) - 1) for i in range(67)]


def shown(ws):
    out, above = "", 0
    for i in range(66, -1, -1):
        if ws[i] != above:
            out += "%d:%016x " % (i, ws[i])
        above = ws[i]
    return out


def reading(ws):
    n = sum(w << (64 * i) for i, w in enumerate(ws))
    return n if n < MOD // 2 else n - MOD


def line(before, total):
    return "%d %d %s| %s\n" % (before <= total, total < 0, shown(words(total)), shown(words(abs(total))))


NEG = 1 << 63
TINY, MAX, INF, NAN = 1, 0x7FEFFFFFFFFFFFFF, 0x7FF0000000000000, 0x7FF8000000000001
ONE, LARGEST_SUBNORMAL, SMALLEST_NORMAL = bits(1.0), (1 << 52) - 1, 1 << 52
EDGES = [0, TINY, LARGEST_SUBNORMAL, SMALLEST_NORMAL, SMALLEST_NORMAL + 1, ONE, bits(3.0), bits(0.1), bits(1e300), MAX, INF, NAN]


def vectors(rng):
    for a in EDGES:
        for b in EDGES:
            yield [(rng.randrange(2), a | NEG * rng.randrange(2), b | NEG * rng.randrange(2))]
    for a in EDGES:
        yield [(0, a, ONE), (1, a, ONE)]
        yield [(0, a, MAX), (1, MAX, a), (1, TINY, TINY)]
        yield [(1, TINY, TINY), (0, a, a), (0, TINY, TINY), (1, a, a)]
        yield [(1, a, a), (0, a, a), (0, TINY, TINY)]
        yield [(0, MAX, MAX), (1, TINY, TINY), (0, a, ONE), (0, TINY, TINY)]
    for k in range(0, 2046, 37):  # 2^k - 1 unit and back: a borrow, then a carry, through k // 64 words
        p = (k + 1) << 52 if k + 1 < 2047 else MAX
        yield [(0, p, SMALLEST_NORMAL), (1, TINY, TINY)]
        yield [(1, p, SMALLEST_NORMAL), (0, TINY, TINY), (0, p, SMALLEST_NORMAL)]
    for _ in range(60):
        yield [(rng.randrange(2), rng.getrandbits(64), rng.getrandbits(64)) for _ in range(rng.randrange(1, 9))]
    for _ in range(40):  # near 1, as an audit's are: the sum less what it should be
        ws = [bits(rng.uniform(-2, 2)) for _ in range(6)]
        fs = [bits(rng.uniform(-1e6, 1e6)) for _ in range(6)]
        target = bits(running_sum(value(w) * value(f) for w, f in zip(ws, fs)))
        yield [(0, w, f) for w, f in zip(ws, fs)] + [(1, target, ONE)]


def columns(rng):
    """Dot products: z, f, column and width. What f does not have counts as 0."""
    def pairs(n):
        return [rng.choice(EDGES) | NEG * rng.randrange(2) for _ in range(n)], [rng.getrandbits(64) for _ in range(n)]

    for n in (0, 1, 2, 3, 48, 64):
        yield *pairs(n), 0, 1
    for width in range(1, 13):  # as an audit has it: rows of `width`, the first column and the last
        for column in sorted({0, width - 1}):
            yield *pairs(24), column, width
    far = 2**64 - 1
    for column, width in ((0, 0), (5, 0), (23, 1), (24, 1), (25, 0), (1, 23), (1, 22), (0, 24), (far, 1), (1, far), (far, far)):
        yield *pairs(24), column, width
    for _ in range(12):
        n = rng.randrange(1, 64)
        yield [bits(rng.uniform(-2, 2)) for _ in range(n)], [bits(rng.uniform(-1e6, 1e6)) for _ in range(n)], 0, 1


def summed(rng):
    """Each vector's bytes and its sum."""
    for vector in vectors(rng):
        data = b"".join(struct.pack("<BQQ", kind, x, y) for kind, x, y in vector) + struct.pack("<BQQ", 2, 0, 0)
        total = sum((-1) ** kind * units(x) * units(y) for kind, x, y in vector)
        assert abs(total) < MOD // 2 and reading(words(total)) == total
        yield data, total


def dotted(rng):
    """Each dot product's bytes and its sum."""
    for z, f, column, width in columns(rng):
        data = b"".join(struct.pack("<BQQ", 3, x, y) for x, y in zip(z, f)) + struct.pack("<BQQ", 4, column, width)
        yield data, sum(units(x) * units(f[column + i * width]) for i, x in enumerate(z) if column + i * width < len(f))


def files():
    rng = random.Random(67)
    sums = [*summed(rng), *dotted(rng)]
    data = b"".join(part for part, _ in sums)
    totals = [0, *(total for _, total in sums)]
    assert len(data) < 65536, len(data)
    return {"stdin": data, "stdout": "".join(map(line, totals, totals[1:])).encode()}
