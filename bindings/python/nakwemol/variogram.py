"""The variogram, and the codes of its models."""
from enum import IntEnum
from typing import NamedTuple

from nakwemol import calls
from nakwemol.lists import number


class VariogramModel(IntEnum):
    """In the original's order. Exponential needs a range above zero: else it is refused by 12."""

    SPHERICAL = 1
    EXPONENTIAL = 2
    GAUSSIAN = 3
    LINEAR = 4


# The same-spot distance that the original has built in.
SAME_SPOT = 2.0 ** -52


class Variogram(NamedTuple):
    """A model and its numbers. Below `same_spot`, a distance, two places are one spot, and the variogram is 0; from it on it is the model's value.

    It is refused by 22 where it is not finite or below 2^-52. A survey file does not carry it: one that is read has 2^-52, and no other is written.
    """

    model: int
    nugget: float
    sill: float
    range: float
    same_spot: float = SAME_SPOT

    def handed(self):
        """As a call takes it."""
        return (calls.code(self.model), *(number(getattr(self, name), name) for name in ("nugget", "sill", "range", "same_spot")))
