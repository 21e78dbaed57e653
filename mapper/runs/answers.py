"""What the proved code answers for a sheet, whichever way it was asked: by the program (runs/by_program.py) or by the library's call (runs/by_library.py)."""
from typing import NamedTuple, Tuple


class Damaged(Exception):
    """An answer that the proved code would not give."""


class Answer(NamedTuple):
    """A sheet's answer: of each node a level, a variance and a verdict; of each column a multiplier, that of the last node, and the trend's estimate."""
    levels: Tuple[float, ...]
    variances: Tuple[float, ...]
    verdicts: bytes
    multipliers: Tuple[float, ...]
    trend: Tuple[float, ...]
    printed: bytes = b''  # the program's own lines, which a call does not have
