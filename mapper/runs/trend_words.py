"""What the trend's estimate says of the water table, in words for the driller: how much it falls, and which way.

The estimate is the program's own (docs/REFERENCE.md, section 13). No audit covers it; but the nodes come from the same equations, so that it is told
only where some of them passed.
"""
import math
from dataclasses import dataclass

from mapper.drawing.scales import fixed
from mapper.numbers import counted, significant
from mapper.runs.lost_digits import what_helps
from mapper.runs.verdicts import NOT_FINITE, verdict_advice

POINTS = ('north', 'north-east', 'east', 'south-east', 'south', 'south-west', 'west', 'north-west')
KILOMETRE = 1000.0
FINEST = 2  # figures after the point of a metre: nobody measures a water table closer than to a centimetre
LEVEL = 'level to a centimetre a kilometre'
MIDDLE = ' in the middle of the wells'
NO_AUDIT = 'an estimate, which no audit covers'
NO_FLOW = "the trend's estimate, which no audit covers, and not a measured flow"
NONE_PASSED = 'The trend is not shown: no node passed, and it comes from the same equations. Mend the nodes first; %s.'
NO_NUMBER = 'The trend is not shown: it came out as no number. '


def metres(length):
    """A length at or above zero as it is told: two figures below ten metres, whole metres from there on, and nothing finer than a centimetre."""
    near = significant(length, 2)
    places = 1 - math.floor(math.log10(near)) if near else FINEST
    return fixed(length, min(FINEST, max(0, places)))


def is_nothing(words):
    """Whether a length is nothing at the figures that are told."""
    return not words.strip('0.')


@dataclass
class Slope:
    """How much the level rises for each metre to the east, and for each metre to the north."""
    east: float
    north: float

    @property
    def fall(self):
        """Metres a kilometre down the slope, in words."""
        return metres(math.hypot(self.east, self.north) * KILOMETRE)

    @property
    def is_level(self):
        return is_nothing(self.fall)

    @property
    def way(self):
        """The compass point that lies nearest to straight down the slope."""
        clockwise = math.degrees(math.atan2(-self.east, -self.north))
        return POINTS[round(clockwise / 45) % 8]

    @property
    def turn(self):
        """How far an arrow that points to the right has to be turned to point down the slope: degrees, clockwise, on a map with north up."""
        return math.degrees(math.atan2(self.north, -self.east))


def middle(wells, origin):
    """The average place of the wells, counted from an origin."""
    return sum(well.x - origin[0] for well in wells) / len(wells), sum(well.y - origin[1] for well in wells) / len(wells)


def slope_of(m):
    """The slope of a map's trend, None where it has none. That of a quadratic one, which is another at each place, is taken in the middle of the wells."""
    if m.trend == 'constant':
        return None
    run = m.runs[m.drawn]
    east, north = run.estimate[1:3]
    if m.trend == 'quadratic':
        xx, xy, yy = run.estimate[3:6]
        x, y = middle(m.wells, run.origin)
        east, north = east + 2 * xx * x + xy * y, north + xy * x + 2 * yy * y
    return Slope(east, north)


def are_numbers(m):
    """Whether the estimate and what is worked out from it are finite."""
    slope = slope_of(m)
    more = () if slope is None else (slope.east * KILOMETRE, slope.north * KILOMETRE)
    return all(map(math.isfinite, (*m.runs[m.drawn].estimate, *more)))


def is_told(m):
    """Whether a map's trend is worth telling: it has been estimated, is made of numbers, and some node passed."""
    run = m.runs[m.drawn]
    return bool(run.estimate and run.passed and are_numbers(m))


def is_grave(m):
    """Whether the map was drawn although it cannot be a water table."""
    return any(doubt.grave for doubt in m.doubts)


def is_doubted(m):
    """Whether the trend is told but some node failed, or the list cannot be one of a water table."""
    return m.runs[m.drawn].failed > 0 or is_grave(m)


def drawn_slope(m):
    """The slope that the map has an arrow for; None where there is none to draw."""
    slope = slope_of(m) if is_told(m) else None
    return None if slope is None or slope.is_level else slope


def arrow_words(slope):
    """How steep the slope is, as it stands beside the arrow."""
    return f'{slope.fall} m/km'


def way_words(m, slope):
    """How steep the slope is, and which way it falls; with an external column it is only what that leaves over."""
    return f'{arrow_words(slope)} to the {slope.way}' + (f' apart from {m.external}' if m.external else '')


def level_words(m):
    """The level of a constant trend."""
    return fixed(m.runs[m.drawn].estimate[0], FINEST)


def column_words(m):
    """What the external column does to the level."""
    factor = m.runs[m.drawn].estimate[-1]
    words = metres(abs(factor))
    if is_nothing(words):
        return f'The level does not change with {m.external}'
    return f'The level {"falls" if factor < 0 else "rises"} {words} m for each metre of {m.external}'


def slope_words(m, slope):
    """What the water table does along the slope."""
    where = MIDDLE if m.trend == 'quadratic' else ''
    return f'water table is {LEVEL}{where}' if slope.is_level else f'water table falls {slope.fall} m a kilometre to the {slope.way}{where}'


def in_short(m):
    """The trend for a table of numbers."""
    slope = slope_of(m) if is_told(m) else None
    if slope is not None:
        return f'{m.trend}, level' if slope.is_level else f'{m.trend}, falls {way_words(m, slope)}'
    return f'{m.trend}, {level_words(m)} m' if is_told(m) and not m.external else m.trend


def said(m):
    """The trend in a sentence."""
    slope = slope_of(m)
    if slope is None:
        words = f'{column_words(m)}, and the trend has no other slope' if m.external else f'The trend is a level of {level_words(m)} m, without a slope'
    else:
        words = (f'{column_words(m)}; apart from that the ' if m.external else 'The ') + slope_words(m, slope)
    return f'{words}: {NO_AUDIT if drawn_slope(m) is None else NO_FLOW}.'


def care(m):
    """What to think of a trend beside which nodes failed, or whose list is gravely doubted."""
    run = m.runs[m.drawn]
    if not run.failed:
        return ' Do not rely on it: it comes from a list that cannot be one of a water table.' if is_grave(m) else ''
    return f' Take it with care: {run.failed:,} of {counted(run.passed + run.failed, "node")} did not pass, and it comes from the same equations.'


def trend_sentence(m):
    """What the driller reads of the trend; where it is not told, why not and what to do."""
    run = m.runs[m.drawn]
    if is_told(m):
        return said(m) + care(m)
    if not run.estimate:
        return ''
    return NO_NUMBER + verdict_advice(NOT_FINITE, m.columns) if run.passed else NONE_PASSED % what_helps(m)
