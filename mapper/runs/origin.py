"""A round corner near the wells, to which the origin is moved so that coordinates keep few figures."""
import math

from mapper.lists.grid import SPOT, bounds

AS_ENTERED = (0.0, 0.0)


def corner(wells):
    """The multiple just south-west of the wells of the power of ten at or below their extent: what is left is at most twice that extent.

    Wells that reach 600 m from 4512310, 5403250 have the corner 4512300, 5403200.
    """
    west, east, south, north = bounds(wells)
    extent = max(east - west, north - south)
    digits = math.floor(math.log10(extent)) if extent >= SPOT else 0
    return floor_to(west, digits), floor_to(south, digits)


def floor_to(x, digits):
    """The multiple of 10^digits at or below x. A power below one is divided by, so that the multiple has no more figures than it should."""
    power = 10.0 ** abs(digits)
    return float(math.floor(x / power) * power if digits >= 0 else math.floor(x * power) / power)
