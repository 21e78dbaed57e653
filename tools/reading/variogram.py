"""Paper 01, "Distance" and "Variogram", with the models of slip 1 and the same-spot distance of slip 5."""
from typing import NamedTuple

from tools.reading.exponential import exp_neg
from tools.reading.floats import div, is_finite, root, running_sum

SPHERICAL, EXPONENTIAL, GAUSSIAN, LINEAR = 1, 2, 3, 4
# slip 5: "`new` sets it to 2^-52"
SAME_SPOT = 2.0**-52


def distance(a, b):
    """"dx·dx + dy·dy, each operation rounded, then the square root"; over other axes "squares by rising axis"."""
    differences = [x - y for x, y in zip(a, b, strict=True)]
    return root(running_sum(d * d for d in differences))


class Variogram(NamedTuple):
    model: int
    nugget: float
    sill: float
    range: float
    same_spot: float = SAME_SPOT

    def evaluate(self, h):
        """Slip 5: "the variogram is 0 below it instead of below 2^-52"; "A distance equal to the field is not the same spot"."""
        return 0.0 if h < self.same_spot else self.by_formula(h)

    def by_formula(self, h):
        """The model's value at a distance that is not the same spot."""
        by_model = {SPHERICAL: self.spherical, EXPONENTIAL: self.exponential, GAUSSIAN: self.gaussian, LINEAR: self.linear}
        return by_model[self.model](h)

    def spherical(self, h):
        """"sill if h ≥ range; else with q = h/range, nugget + (sill − nugget)·(1.5·q − 0.5·q³)", q³ as q·(q·q)."""
        if h >= self.range:
            return self.sill
        q = div(h, self.range)
        return self.nugget + (self.sill - self.nugget) * (1.5 * q - 0.5 * (q * (q * q)))

    def exponential(self, h):
        """Slip 1: "nugget + (sill − nugget)·(1 − e^−(h/range))"."""
        return self.nugget + (self.sill - self.nugget) * (1.0 - exp_neg(div(h, self.range)))

    def gaussian(self, h):
        """Slip 1: "nugget + (sill − nugget)·(1 − e^−((h·h)/(range·range)))"."""
        return self.nugget + (self.sill - self.nugget) * (1.0 - exp_neg(div(h * h, self.range * self.range)))

    def linear(self, h):
        """"nugget + (sill/range)·(h if h < range, else range)"."""
        return self.nugget + div(self.sill, self.range) * (h if h < self.range else self.range)

    def without_range(self):
        """Slip 1: "12 now means an Exponential survey whose range is not above zero, and nothing else"."""
        return self.model == EXPONENTIAL and not self.range > 0.0

    def wrong_spot(self):
        """Slip 5: "22 same-spot distance not finite or below 2^-52"."""
        return not is_finite(self.same_spot) or self.same_spot < 2.0**-52

    def numbers(self):
        """Those that 11 judges and a survey file has."""
        return [self.nugget, self.sill, self.range]
