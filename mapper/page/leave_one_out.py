"""What the page says of the wells that were left out one by one."""
import math
from html import escape

from mapper.doubts.leave_one_out import deviation_ratio, rmse
from mapper.drawing.doubted_wells import doubted_wells
from mapper.drawing.leave_one_out_chart import leave_one_out_chart
from mapper.drawing.scales import counted, fixed, plain
from mapper.numbers import significant
from mapper.runs.trend_words import is_grave

TOO_FEW = 'No well was left out to see what the others say of it: there are too few wells for that.'
SMALL, GREAT = 0.5, 2.0  # of the mean squared deviation ratio: between them it is near 1


def metres(length):
    """To a centimetre, and with no more than four figures."""
    return fixed(length, 2) if length < 100 else plain(significant(length, 4), 4)


def two_figures(number):
    return plain(significant(number, 2), 2)


def ratio_words(ratio):
    """What the mean squared deviation ratio says of the ±."""
    times = two_figures(math.sqrt(ratio))
    if ratio > GREAT:
        return f'well above 1: the ± of the map is too small, errors are some {times} times as large'
    if ratio < SMALL:
        return f'well below 1: the ± of the map is larger than it need be, errors are some {times} times it'
    return 'near 1: the ± of the map is about right'


def finite(of, m):
    """A number that can be told of a map; None where there is none, or it is past all numbers."""
    try:
        found = of(m)
    except OverflowError:
        return None
    return found if found is not None and math.isfinite(found) else None


def left_out_words(m):
    """How well the wells tell each other, in a sentence or two."""
    error, ratio, told = finite(rmse, m), finite(deviation_ratio, m), sum(left.level is not None for left in m.left_out)
    if error is None:
        return 'The other wells say nothing that can be shown of any well.'
    of = '' if told == len(m.wells) else f' of {len(m.wells)}'
    words = f'Each of {counted(told, "well")}{of} was left out once and told by the others: they miss its level by {metres(error)} m (root of the mean square).'
    if any(well.entered for well in m.wells):
        words += ' Wells that are one spot were left out together.'
    if is_grave(m):
        return words + ' What that says of the ± means nothing while the list cannot be one of a water table.'
    if any(doubted_wells(m)):
        words += ' Wells that are doubted are counted in.'
    if ratio is None:
        return words
    return words + f' Measured in their ± that is a mean squared deviation ratio of {two_figures(ratio)}, {ratio_words(ratio)}.'


def left_out_part(m):
    """The chart and its sentence; nothing where no well was left out."""
    return leave_one_out_chart(m) + '<p>%s</p>' % escape(left_out_words(m)) if m.left_out else ''
