"""Numbers that stand for none, such as -9999, which many programs write: which of them cannot be true."""
import re

from mapper.naming import called, several
from mapper.numbers import shown
from mapper.records import Doubt

NINES = re.compile(r'(-?9{3,}|-99)(\.9+)?')  # 999, -9999, -999.9, -99
OTHERS = {-32768.0, 32767.0, -2147483648.0, 2147483647.0, -999.25}
HIGHEST = 9000.0  # metres: above the top of any ground
LOWEST = -500.0   # metres: below any water table


def like_none(number):
    """Whether a number is one of those that programs write for none."""
    return bool(NINES.fullmatch(shown(number))) or number in OTHERS


def apart(number, others):
    """Whether a number stands far outside the others: three times as far as they reach, and 100 m at least; or it alone is below zero, and far below."""
    low, high = min(others, default=number), max(others, default=number)
    return max(low - number, number - high) > max(3 * (high - low), 100.0) or (low >= 0 and number <= -999)


def impossible(number, metres, others, height):
    """Whether a number stands for none: a height that there is nowhere, or one that has nothing to do with the others."""
    if not like_none(number):
        return False
    return (height and not LOWEST < metres < HIGHEST) or apart(metres, others)


def sentinels(cells, height):
    """The rows of a column whose numbers stand for none. `cells` are pairs: the number as it was read, and in metres. `height` for levels and ground,
    which are within the earth's; a coordinate of 9999 can be true."""
    usual = [metres for number, metres in cells if not like_none(number)]
    return [i for i, (number, metres) in enumerate(cells) if impossible(number, metres, usual, height)]


def sentinel_doubts(header, found):
    """One grave doubt for each number that stands for none. `found` are pairs: a well, and the number."""
    doubts = []
    for number in dict.fromkeys(number for _, number in found):
        wells = several(called(well) for well, each in found if each == number)
        doubts.append(Doubt(f'{wells}: {header} is {shown(number)}, which stands for a missing value and cannot be true. '
                            'Fill it in or take the line out; --skip-unreadable leaves such lines out and lists them.', True))
    return doubts
