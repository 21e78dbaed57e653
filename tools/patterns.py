"""An f64 and its pattern of 64 bits."""
import struct

NAN = 0x7FF8_0000_0000_0000


def bits(x):
    """The pattern of a float, every NaN as one."""
    return NAN if x != x else struct.unpack("<Q", struct.pack("<d", x))[0]


def value(pattern):
    return struct.unpack("<d", struct.pack("<Q", pattern))[0]


def word(pattern):
    return f"{pattern:016x}"


def words(patterns):
    return " ".join(word(p) for p in patterns)
