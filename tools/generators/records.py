"""Calls of the original and their answers as lines and as records of 64-bit words.

A record is little-endian words of 64 bits:

    the call: 1 fit, 2 interpolate, 3 calculate, 4 invert_uked, 5 matrix_inverse
    how many words the call has, and how many its answer
    the call's words: the words of the line after its name (tools/oracle/README.md), a number by its pattern, a count or a code as it is
    the answer's words: 0 for `ok` and then the words after it; or one word alone,
        1 InvalidInput, 2 InsufficientData, 3 MatrixError, 4 DimensionMismatch, 5 InvalidParameter, 6 panic, 7 shape, 8 none
"""
import struct

from tools.oracle.oracle import ask
from tools.patterns import bits, word

CALLS = {"fit": 1, "interpolate": 2, "calculate": 3, "invert_uked": 4, "matrix_inverse": 5}
OUTCOMES = {
    "error InvalidInput": 1,
    "error InsufficientData": 2,
    "error MatrixError": 3,
    "error DimensionMismatch": 4,
    "error InvalidParameter": 5,
    "panic": 6,
    "shape": 7,
    "none": 8,
}


class Pattern(int):
    """A number by its pattern: 16 hexadecimal digits in a line. Any other int is a count or a code."""


def number(x):
    return Pattern(bits(x))


def numbers(xs):
    return [number(x) for x in xs]


def listed(xs):
    """A list as the protocol has it: its length, then its numbers."""
    return [len(xs), *numbers(xs)]


def line(call):
    return " ".join(word(w) if isinstance(w, Pattern) else str(w) for w in call)


def answered(calls):
    """Each call with the original's answer."""
    return zip(calls, ask([line(call) for call in calls]))


def answer_words(answer):
    if answer in OUTCOMES:
        return [OUTCOMES[answer]]
    first, *rest = answer.split()
    assert first == "ok", answer
    return [0, *(int(w, 16 if len(w) == 16 else 10) for w in rest)]


def packed(words):
    return struct.pack(f"<{len(words)}Q", *words)


def record(call, answer):
    asked, answer = call[1:], answer_words(answer)
    return packed([CALLS[call[0]], len(asked), len(answer), *asked, *answer])


def files(records):
    """What a program reads, and what it writes where every record comes out as it says."""
    return {"stdin": b"".join(records), "stdout": f"{len(records)} compared, 0 differ\n".encode()}
