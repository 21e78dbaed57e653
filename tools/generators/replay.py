"""What the generators of whole calls share: the marks of the lent areas, what a refusal is held to, what a number may be, and what a program writes."""
import math
from collections import Counter

from tools.patterns import bits, value
from tools.reading.refusals import KINDS

MARK = 0x4730_0000_0000_0000
MINUS_ZERO = 1 << 63


def marked(length):
    """An area before a call: each place has a mark of its own."""
    return [value(MARK + at) for at in range(length)]


def untouched(areas, before, written):
    """All past what is written is as it was."""
    return all(list(map(bits, after[length:])) == list(map(bits, marks[length:])) for after, marks, length in zip(areas, before, written, strict=True))


def plus_zero(patterns):
    """Variances of the original: a zero one as +0."""
    return [0 if x == MINUS_ZERO else x for x in patterns]


def hold_refusal(number, answer, call):
    """Stops where the original refuses a call otherwise: by another kind, if it has the refusal and its types let the call be put to it."""
    kinds = [f"error {kind}" for kind in KINDS.get(number, ())]
    assert not kinds or answer in [*kinds, "shape"], (number, answer, call)


def kind_of(x):
    """Which of the things that a number may be."""
    if x != x:
        return "nan"
    if math.isinf(x):
        return "infinite"
    if x == 0.0:
        return "minus zero" if bits(x) else "zero"
    return "subnormal" if abs(x) < 2.0**-1022 else "negative" if x < 0.0 else "positive"


def written_lines(numbers, parts):
    """What a program writes where every record comes out as it says: the numbers that the calls end by, and how many places of each part are compared."""
    endings = Counter(numbers)
    yield from (f"ended by {number}: {endings[number]}" for number in sorted(endings))
    yield f"numbers of the endings: {len(numbers)} compared, 0 differ"
    yield from (f"{name}: {count} compared, 0 differ" for name, count in parts.items())
    yield f"{len(numbers)} compared, 0 differ"


def made_files(records, lines, most_bytes):
    data = b"".join(records)
    assert len(data) <= most_bytes, len(data)
    return {"stdin": data, "stdout": "".join(line + "\n" for line in lines).encode()}
