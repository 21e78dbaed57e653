"""Days as people write them: 2024-05-31, 31.5.2024, and 31/5/2024 or 5/31/2024 where the column as a whole leaves no choice."""
import re
from datetime import datetime

ISO = re.compile(r'([0-9]{4})[-/.]([0-9]{1,2})[-/.]([0-9]{1,2})')
DOTS = re.compile(r'([0-9]{1,2})\.\s?([0-9]{1,2})\.\s?([0-9]{4}|[0-9]{2})')
SLASHES = re.compile(r'([0-9]{1,2})([/-])([0-9]{1,2})\2([0-9]{4})')
TIME = re.compile(r'(.*[0-9])(?:\s+|T)([0-9]{1,2}):([0-9]{2})(?::([0-9]{2})(?:\.[0-9]+)?)?\s*([AaPp][Mm]|Z)?')
TURN = 70  # two figures below it are years from 2000 on


def moment(text, first):
    """The moment that a field says; None where it says none. `first` is what stands first between slashes, 'day' or 'month'."""
    clock = TIME.fullmatch(text)
    parts = in_order(clock.group(1).strip() if clock else text, first)
    try:
        return datetime(*parts, *hours(clock)) if parts else None
    except ValueError:
        return None


def in_order(text, first_is):
    """Year, month and day."""
    found = ISO.fullmatch(text)
    if found:
        return tuple(int(part) for part in found.groups())
    found = DOTS.fullmatch(text)
    if found:
        first, second, year = (int(part) for part in found.groups())
        return (year if year > 99 else year + (2000 if year < TURN else 1900), second, first)
    found = SLASHES.fullmatch(text)
    if not found:
        return None
    first, second, year = (int(found.group(i)) for i in (1, 3, 4))
    return (year, second, first) if first_is == 'day' else (year, first, second)


def hours(clock):
    if not clock:
        return 0, 0, 0
    hour, minute, second = (int(part or 0) for part in clock.groups()[1:4])
    half = (clock.group(5) or '').lower()
    return hour % 12 + 12 * (half == 'pm') if half in ('am', 'pm') else hour, minute, second


def orders(cells):
    """What may stand first in 31/5/2024, the day or the month, as far as all fields of a column tell: both, one, or none where they contradict."""
    possible = {'day', 'month'}
    for text in cells:
        clock = TIME.fullmatch(text)
        found = SLASHES.fullmatch(clock.group(1).strip() if clock else text)
        if found and int(found.group(1)) > 12:
            possible.discard('month')
        if found and int(found.group(3)) > 12:
            possible.discard('day')
    return possible


def has_slashes(text):
    """Whether the day and the month of a field may stand either way."""
    clock = TIME.fullmatch(text)
    return bool(SLASHES.fullmatch(clock.group(1).strip() if clock else text))
