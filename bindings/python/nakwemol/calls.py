"""The exported functions as they are, over ctypes: arrays for lists and areas, numbers and codes for options, and the answer's number back.

include/nakwemol.h says of each what its lists and areas hold, and in which order its numbers come.
"""
import ctypes
import os
from ctypes import POINTER, c_double, c_size_t, c_uint8
from pathlib import Path

from nakwemol.limits import MOST_WELLS

HERE = Path(__file__).resolve().parent
LIBRARY = HERE.parents[2] / "target" / "staticlib" / "libnakwemol.so"
MAKE_ANEW = "make it anew by `tools/build nakwemol` and `bindings/python/link`"

NUMBERS = [POINTER(c_double), c_size_t]
BYTES = [POINTER(c_uint8), c_size_t]
COUNTS = [POINTER(c_size_t), c_size_t]
WELLS = [*NUMBERS, *NUMBERS, *BYTES, *NUMBERS]
NODES = [*NUMBERS, *NUMBERS]
VARIOGRAM = [c_uint8, c_double, c_double, c_double, c_double]  # model, nugget, sill, range, same-spot distance
SURVEY = [*WELLS, *VARIOGRAM, c_double, *NODES, c_double]

PARAMETERS = {
    "nakwemol_fit": [*SURVEY, *NUMBERS, *NUMBERS, *NUMBERS, *BYTES, *NUMBERS, *NUMBERS, *NUMBERS],
    "nakwemol_interpolate": [*NUMBERS, *NUMBERS, *NUMBERS, c_size_t, c_uint8, *VARIOGRAM, *NUMBERS, *NUMBERS, *NUMBERS],
    "nakwemol_semivariogram": [*NUMBERS, *NUMBERS, c_size_t, c_size_t, *NUMBERS, *NUMBERS, *COUNTS, POINTER(c_size_t)],
    "nakwemol_read": [*BYTES, *WELLS, *NODES, POINTER(c_size_t * 3), POINTER(c_double * 5), POINTER(c_uint8)],
    "nakwemol_write": [*SURVEY, *BYTES, POINTER(c_size_t)],
}


def load():
    """The shared object that NAKWEMOL_LIBRARY names, else the one beside the archive of this repository."""
    path = Path(os.environ.get("NAKWEMOL_LIBRARY", LIBRARY))
    if not path.is_file():
        raise OSError(f"{path} is not there: make it by `tools/build nakwemol` and `bindings/python/link`, or name it in NAKWEMOL_LIBRARY")
    library = ctypes.CDLL(str(path))
    for name, parameters in PARAMETERS.items():
        getattr(library, name).argtypes = parameters
        getattr(library, name).restype = c_uint8
    if not takes_same_spot(library, 1):
        raise OSError(f"{path} is older than the same-spot distance, and would take it for r: {MAKE_ANEW}")
    if not takes_same_spot(library, MOST_WELLS):
        raise OSError(f"{path} is of before {MOST_WELLS} wells, and would refuse what is taken now: {MAKE_ANEW}")
    return library


def takes_same_spot(library, n):
    """Whether a shared object takes the same-spot distance after the range with n wells: one of 0 is refused by 22 then. One of before takes that 0 for r, and
    goes on to the work area, which is lent too short: 17. One that takes fewer wells says so before it looks at either: 9."""
    wells, nodes, areas = (area(n), area(2 * n), codes([1]), area(0)), (area(0), area(0)), [area(0) if at != 3 else codes([]) for at in range(7)]
    return library.nakwemol_fit(*handed(*wells, 1, 0.0, 1.0, 1.0, 0.0, 0.0, *nodes, 0.0, *areas)) == 22


def numbers(xs):
    return (c_double * len(xs))(*xs)


def codes(xs):
    """A byte for each code; what is none is 0, which no list of codes has."""
    return (c_uint8 * len(xs))(*map(code, xs))


def code(x):
    return x if 0 <= x <= 255 else 0


def count(x):
    """A count as a machine word holds it; what it cannot hold is the greatest, which no call takes."""
    most = 2 ** (8 * ctypes.sizeof(c_size_t)) - 1
    return x if 0 <= x <= most else most


def area(length):
    return (c_double * length)()


def handed(*arguments):
    """What a function takes: an array as a pointer and its length, all else as it is."""
    return [part for argument in arguments for part in ((argument, len(argument)) if isinstance(argument, ctypes.Array) else (argument,))]


def call(name, *arguments):
    """Calls a function."""
    return getattr(library, name)(*handed(*arguments))


library = load()
