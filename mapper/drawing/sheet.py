"""One size of the map's sheet: its frame with numbers, the scale and north, and the way from the ground to it."""
from dataclasses import dataclass
from html import escape

from mapper.drawing.labels import Box, text_width
from mapper.drawing.scales import decimals, fixed, length_words, round_step, ticks

FONT = 12.0
STRONG = 14.0  # of what is written beside an arrow
RADIUS = 3.6  # of a well
RING = 8.0  # around a well that a doubt names
NARROW = 420  # a map less broad has no room for many levels


@dataclass
class Size:
    """A size the map is drawn in: how broad and how high it may be at most. Its letters are as large as they are meant to be seen."""
    name: str
    broad: float
    high: float


SIZES = (Size('wide', 900, 800), Size('middle', 560, 640), Size('narrow', 360, 520), Size('paper', 620, 640))


class Sheet:
    """The map's frame on the sheet, and the way from the ground to it."""

    def __init__(self, ground, size):
        self.left, self.top, right = FONT * 2.1, FONT * 0.6, FONT * 0.6
        self.below = FONT * 6.4  # numbers of the frame; scale and north; which run is drawn
        room = size.broad - self.left - right, size.high - self.top - self.below
        self.scale = min(room[0] / ground.width, room[1] / ground.height)
        self.width, self.height = ground.width * self.scale, ground.height * self.scale
        self.broad, self.high = self.left + self.width + right, self.top + self.height + self.below
        self.frame = Box(self.left, self.top, self.left + self.width, self.top + self.height)

    def place(self, x, y):
        """From the ground to the sheet."""
        return self.left + x * self.scale, self.top + y * self.scale


def text(x, y, words, more=''):
    return '<text x="%.1f" y="%.1f"%s>%s</text>' % (x, y, more, escape(words))


def fitted(x, y, words, room):
    """Words in smaller letters where there is no room for them."""
    size = min(FONT, FONT * room / text_width(words, FONT))
    return text(x, y, words, ' style="font-size:%.1fpx"' % size if size < FONT else '')


def haloed(x, y, words, more=''):
    """Words that stay legible on any ground."""
    return text(x, y, words, ' class="halo"' + more)


def are_apart(found):
    """Whether no words of these ticks run into the next."""
    marks = sorted((middle, text_width(words, FONT)) for _, words, middle in found)
    return all(b - a >= (broad + other) / 2 + FONT * 0.75 for (a, broad), (b, other) in zip(marks, marks[1:]))


def tick_words(low, high, most, place, end):
    """At most so many and one round numbers between two: each with its words and the middle of these, which stay between 0 and the end."""
    step = round_step(high - low, most)
    found = []
    for tick in ticks(low, high, step):
        words = fixed(tick, decimals(step))
        half = text_width(words, FONT) / 2
        found.append((tick, words, min(max(place(tick), half), end - half)))
    return found if len({words for _, words, _ in found}) == len(found) else []


def numbered_ticks(low, high, place, end):
    """Round numbers along a side of the frame, as many as stand apart; two that are not neighbours where else there would be one."""
    fewer = []
    for most in range(8, 0, -1):
        found = tick_words(low, high, most, place, end)
        if len(found) > 1 and are_apart(found):
            return found
        ends = found[::max(1, len(found) - 1)]
        if len(ends) >= len(fewer) and are_apart(ends):
            fewer = ends
    return fewer


def frame_numbers(ground, sheet):
    """Round coordinates on the frame, as entered: eastings below, northings at the left, turned."""
    f = sheet.frame
    east, north = (lambda tick: sheet.place(ground.x(tick), 0)[0]), (lambda tick: sheet.place(0, ground.y(tick))[1])
    parts = []
    for tick, words, x in numbered_ticks(ground.x0, ground.x1, east, sheet.broad):
        parts.append('<path d="M%.1f %.1fv5" class="tick"/>' % (east(tick), f.bottom) + text(x, f.bottom + FONT * 1.4, words, ' text-anchor="middle"'))
    for tick, words, y in numbered_ticks(ground.y0, ground.y1, north, f.bottom):
        turned = ' text-anchor="middle" transform="translate(%.1f %.1f) rotate(-90)"' % (f.left - 8, y)
        parts.append('<path d="M%.1f %.1fh-5" class="tick"/>' % (f.left, north(tick)) + text(0, 0, words, turned))
    return ''.join(parts)


def scale_bar(ground, sheet):
    """A bar of round length, in two halves."""
    metres = 2 * ground.half_width
    step = round_step(metres, 4)  # a quarter to five eighths of the frame, which leaves room for its words and for north
    length = sheet.width * (step / metres)
    x, y = sheet.left, sheet.frame.bottom + FONT * 2.9
    half = '<path d="M%.1f %.1fh%.1fv5h-%.1fz" class="%s"/>'
    return (half % (x, y, length / 2, length / 2, 'bar') + half % (x + length / 2, y, length / 2, length / 2, 'bar open')
            + text(x + length + 7, y + FONT * 0.6, length_words(step)))


def north_arrow(sheet):
    """North is up."""
    x, y = sheet.frame.right - 10, sheet.frame.bottom + FONT * 2.2
    arrow = '<path d="M%.1f %.1fl6 19l-6 -5l-6 5z" class="north"/>' % (x, y)
    return arrow + text(x - 11, y + 16, 'N', ' text-anchor="end" class="strong"')
