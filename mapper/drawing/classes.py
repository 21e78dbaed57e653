"""Classes of levels or deviations: between which round numbers a figure lies, and what colour that is."""
import math
from bisect import bisect_right
from dataclasses import dataclass
from typing import List, Tuple

from mapper.drawing.colours import class_colours
from mapper.drawing.scales import decimals, fixed, plain, round_step, ticks


@dataclass
class Classes:
    """`bounds` rise, and class k lies from bound k - 1 up to below bound k; there is a colour more than there are bounds."""
    low: float
    high: float
    step: float
    bounds: List[float]
    colours: List[Tuple[int, int, int]]

    def of(self, value):
        """The number of the class that a figure lies in, from 0."""
        return bisect_right(self.bounds, value)

    def places(self):
        """How many figures after the point tell a figure well within its class."""
        return min(9, decimals(self.step) + 2)

    def figure(self, value):
        """A figure as it is told to the reader."""
        if self.step == 0 or decimals(self.step) > 7 or self.step >= 1e9:
            return plain(value)
        return fixed(value, self.places())

    def bound_words(self, value):
        """A bound as it stands in the legend and on its contour line."""
        if decimals(self.step) > 7 or self.step >= 1e9:
            return plain(value, 4)
        return fixed(value, decimals(self.step))

    def words(self, k):
        """What class k holds."""
        if not self.bounds:
            return self.figure(self.low) if self.low == self.high else 'about ' + plain(self.low)
        if k == 0:
            return 'below ' + self.bound_words(self.bounds[0])
        if k == len(self.bounds):
            return self.bound_words(self.bounds[-1]) + ' and above'
        return '%s to %s' % (self.bound_words(self.bounds[k - 1]), self.bound_words(self.bounds[k]))


def classes(low, high, palette, most=11):
    """Classes between round numbers for figures from `low` to `high`; a single one where they differ by rounding alone."""
    span = high - low
    if not span > 1e-9 * max(abs(low), abs(high)):
        return Classes(low, high, 0.0, [], class_colours(palette, 1))
    if math.isinf(span):
        span = 1.7e308
    step = round_step(span, most - 1)
    bounds = [b for b in ticks(low, high, step) if low < b <= high]
    return Classes(low, high, step, bounds, class_colours(palette, len(bounds) + 1))
