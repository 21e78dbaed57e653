"""What is asked of the proved code, whichever the nodes and the origin."""
from dataclasses import dataclass
from typing import List, Optional

from mapper.records import Variogram, Well

SAME_SPOT = 2.0 ** -52  # metres: the same-spot distance of a survey file, which does not carry it


@dataclass
class Survey:
    """The wells, the trend, the model and the small numbers."""
    wells: List[Well]
    trend: str
    external: Optional[str]
    variogram: Variogram
    regularization: float
    tolerance: float
    same_spot: Optional[float] = None  # metres below which two places are one spot, where it was asked for: wells at one spot are one well then
