"""Places in degrees, which are no metres.

Metres of a yard may be as small as degrees are: 0 to 100 by 0 to 80. What tells them apart is how the water stands in them. A degree is some hundred
kilometres, so that a water table that falls a metre a kilometre rises and falls a hundred units for each unit of the place; in metres none
rises half as much as it goes along. So places within ±180 and ±90 are taken as degrees where the middle half of the levels reaches farther than
half as far as the middle half of the places (halves, so that one wrong level or place decides nothing). Two figures after the point are asked
for, as nobody writes a well's degrees more roughly than to a kilometre, while whole numbers are a grid that somebody made up. Where levels are nearly
the same, four figures tell: a well is not measured to a tenth of a millimetre, and a map not made of wells within five metres.
"""
from mapper.doubts.well_words import length
from mapper.numbers import shown
from mapper.records import Doubt

WIDEST = 30.0   # degrees or metres between the places in the middle half
STEEP = 0.5     # levels against places: none in metres is as steep
ROUGH, FINE = 2, 4
NEAR = 5.0      # metres


def middle_half(values):
    """How far the middle half of some numbers reaches; of fewer than four all of them."""
    ordered = sorted(values)
    quarter = len(ordered) // 4
    return ordered[len(ordered) - 1 - quarter] - ordered[quarter]


def figures(x):
    """How many figures after the point a number needs."""
    text = shown(x)
    return FINE if 'e' in text else len(text.partition('.')[2])


def mostly(wells, least):
    """Whether more than half of the wells have that many figures after the point in their places."""
    return 2 * sum(max(figures(well.x), figures(well.y)) >= least for well in wells) > len(wells)


def within(wells):
    """Whether all places could be degrees, whichever of x and y is which."""
    x, y = max(abs(well.x) for well in wells), max(abs(well.y) for well in wells)
    return max(x, y) <= 180 and min(x, y) <= 90


def are_degrees(wells):
    """Whether the places are degrees, by the rule above."""
    reach = max(middle_half([well.x for well in wells]), middle_half([well.y for well in wells]))
    if not within(wells) or not 0 < reach <= WIDEST:
        return False
    steep = middle_half([well.level for well in wells]) > STEEP * reach
    return mostly(wells, ROUGH) and steep or mostly(wells, FINE) and reach <= NEAR


def degree_doubts(wells):
    """The doubt that x and y are degrees, if they look so."""
    if not are_degrees(wells):
        return []
    xs, ys = [well.x for well in wells], [well.y for well in wells]
    spread = length(max(max(xs) - min(xs), max(ys) - min(ys)))
    return [Doubt(f'x ({shown(min(xs))} to {shown(max(xs))}) and y ({shown(min(ys))} to {shown(max(ys))}) look like degrees: as metres all wells would '
                  f'stand within {spread}. Have the places converted to metres on a flat grid, UTM for example; if they are kilometres, write [km] '
                  'in the header.', True)]
