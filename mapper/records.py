"""What a map is made of: what was entered, what the proved program answered, and what the page shows."""
from array import array
from dataclasses import dataclass, field
from typing import Dict, List, Optional, Tuple

from mapper.model.variogram_models import rise


@dataclass
class Well:
    """A measured well, as it stands in the list; but one that --same-spot has joined to another stands at that one's place."""
    name: str
    x: float
    y: float
    level: float
    more: Dict[str, float] = field(default_factory=dict)  # further columns, by their header
    line: int = field(default=0, compare=False)           # where it stands in the list; 0 where that is not known
    entered: Optional[Tuple[float, float]] = None         # its place in the list, where it was joined to another well

    @property
    def listed_place(self):
        """x and y as the list has them."""
        return self.entered or (self.x, self.y)


@dataclass
class Doubt:
    """What a reader has to look at before the map is believed, whatever the audit says."""
    sentence: str        # what is doubtful, by name and line, and what to do about it
    grave: bool = False  # it cannot be a water table: the map is refused without --anyway


@dataclass
class LeftOut:
    """What the other wells say of a well: its level and their standard deviation, None where they say nothing."""
    level: Optional[float]
    deviation: Optional[float] = None


@dataclass
class Source:
    """Where a map comes from, for its foot: what was read, by what, and when."""
    list_name: str    # of the list of wells, with its ending
    checksum: str     # SHA-256 of the list, 64 hexadecimal digits
    program: str      # SHA-256 of the file that was run: the program's, or the library's
    made: str         # the day, such as 2026-11-17
    by: str = 'wellmap'  # the proved code that the figures come from, in words


@dataclass
class Grid:
    """Nodes on a regular grid, row after row from the south-west corner: node r * columns + c is at (x0 + c * dx, y0 + r * dy)."""
    x0: float
    y0: float
    dx: float
    dy: float
    columns: int
    rows: int


@dataclass
class Nodes:
    """The nodes, in coordinates as entered, and what each got. `level` means something only where `verdict` is 0."""
    x: array
    y: array
    level: array
    variance: array
    verdict: bytearray
    names: Optional[List[str]] = None  # of a list of nodes that names them

    def __len__(self):
        return len(self.x)


@dataclass
class Variogram:
    """The model and its numbers, and where they come from."""
    model: str  # 'spherical', 'exponential', 'gaussian' or 'linear'
    nugget: float
    sill: float
    range: float
    how: str = 'given'  # 'fitted' to the bins; 'given', all three; or 'plain', where there was nothing to fit
    given: List[str] = field(default_factory=list)  # which of the three were given all the same: 'nugget', 'sill', 'range'

    @property
    def fitted(self):
        return self.how == 'fitted'

    @property
    def top(self):
        """What the model rises to: the variance of levels far apart."""
        return self.nugget + self.sill if self.model == 'linear' else self.sill

    def at(self, h):
        """The model at the distance h, for the curve that is drawn."""
        if self.model == 'linear':
            return self.nugget + self.sill / self.range * min(h, self.range)
        if self.model == 'spherical' and h >= self.range:
            return self.sill
        return self.nugget + (self.sill - self.nugget) * rise(self.model, h, self.range)


@dataclass
class Bin:
    """One bin of the semivariogram: its centre, the average of its pairs, and how many they are."""
    distance: float
    semivariance: float
    pairs: int
    used: bool = True  # False where the model was not fitted to it, since its pairs are far apart


@dataclass
class Run:
    """One way through all the nodes: with the origin moved by (east, north), or (0, 0) as entered. How many nodes got each verdict."""
    origin: Tuple[float, float]
    verdicts: Dict[int, int]
    refused: int = 0  # the number by which the whole run was turned away; it has no verdicts then
    estimate: Tuple[float, ...] = ()  # of the trend, a number for each column in coordinates from that origin; no audit covers it

    @property
    def passed(self):
        return self.verdicts.get(0, 0)

    @property
    def failed(self):
        return sum(self.verdicts.values()) - self.passed


@dataclass
class Map:
    """Everything that the page and the table are made from."""
    title: str                       # the name of the list of wells, without its folder and ending
    wells: List[Well]
    nodes: Nodes
    grid: Optional[Grid]             # None where the nodes came as a list
    variogram: Variogram
    bins: List[Bin]
    trend: str                       # 'constant', 'linear' or 'quadratic'
    external: Optional[str]          # the header of the column, if any
    regularization: float
    tolerance: float
    columns: List[str]               # what the audit's rows 1 to p are, in words: '1', 'x', 'y', 'x²', 'xy', 'y²', or the external column's header
    runs: List[Run]                  # in the order they were made
    drawn: int                       # which of the runs the nodes and the page show
    notes: List[str]                 # sentences for the reader: what was moved, fitted, left out
    refused: List[str] = field(default_factory=list)  # sentences: what was turned away, and why
    doubts: List[Doubt] = field(default_factory=list)
    left_out: List[LeftOut] = field(default_factory=list)  # one for each well; none where there are too few to leave one out
    source: Optional[Source] = None
    same_spot: Optional[float] = None  # metres below which two places are one spot, where it was asked for
