"""Each well's level in the list against what the other wells say: on the line where they agree, the farther off the more doubtful."""
import math
from html import escape

from mapper.drawing.doubted_wells import doubted_wells
from mapper.drawing.labels import Box, short_name, text_width, well_labels
from mapper.drawing.scales import decimals, fixed, plain, power_form, round_step, ticks

BROAD, HIGH, FONT = 380.0, 290.0, 12.0
LEFT, RIGHT, TOP, BELOW = 62.0, 368.0, 26.0, 246.0  # the frame
DOT = 3.2
EDGE = 0.02  # of the levels' range, left free around them


class Told:
    """A well that the others tell: its level in the list, theirs, their deviation, whether a doubt names it."""

    def __init__(self, well, left, doubted):
        self.name, self.level, self.said, self.deviation, self.doubted = well.name, well.level, left.level, left.deviation, doubted

    @property
    def words(self):
        around = ' ± %s m' % plain(self.deviation, 3) if self.deviation is not None else ''
        return '%s: the list says %s m, the other wells %s m%s' % (self.name, plain(self.level, 7), plain(self.said, 6), around)


def told_wells(m):
    """The wells that the others tell, in numbers that can be drawn."""
    found = [Told(*each) for each in zip(m.wells, m.left_out, doubted_wells(m)) if each[1].level is not None]
    return [each for each in found if all(map(math.isfinite, (each.level, each.said, each.level - each.said)))]


class Axes:
    """One scale for both axes: from a round number below all levels to one above."""

    def __init__(self, told):
        levels = [level for each in told for level in (each.level, each.said)]
        low, high = min(levels), max(levels)
        if not high - low > 1e-9 * max(abs(low), abs(high)):
            low, high = low - 0.5 - abs(low) * 1e-6, high + 0.5 + abs(high) * 1e-6
        low, high = low - EDGE * (high - low), high + EDGE * (high - low)
        self.step = round_step(high - low, 5)
        self.low, self.high = math.floor(low / self.step) * self.step, math.ceil(high / self.step) * self.step

    def share(self, level):
        return min(1.0, max(0.0, (level - self.low) / (self.high - self.low)))

    def x(self, level):
        return LEFT + (RIGHT - LEFT) * self.share(level)

    def y(self, level):
        return BELOW - (BELOW - TOP) * self.share(level)

    def ticks(self):
        """Each with its words, by a power of ten where they are too broad."""
        found = ticks(self.low, self.high, self.step)
        words = [fixed(tick, decimals(self.step)) for tick in found]
        if any(text_width(each, FONT) > LEFT - 10 for each in words):
            words = [power_form(tick, 3) for tick in found]
        return list(zip(found, words))


def text(x, y, words, more=''):
    return '<text x="%.1f" y="%.1f"%s>%s</text>' % (x, y, more, escape(words))


def frame(axes):
    """The axes with their numbers and words, and the line on which both levels are the same."""
    parts = ['<path d="M%.1f %.1fV%.1fH%.1f" class="axis"/>' % (LEFT, TOP, BELOW, RIGHT)]
    free = -math.inf
    for tick, words in axes.ticks():
        x, y, half = axes.x(tick), axes.y(tick), text_width(words, FONT) / 2
        parts.append('<path d="M%.1f %.1fv4" class="axis"/><path d="M%.1f %.1fH%.1f" class="rule"/>' % (x, BELOW, LEFT, y, RIGHT))
        parts.append(text(LEFT - 6, y + 4, words, ' text-anchor="end"'))
        x = min(x, BROAD - half)
        if x - half > free:
            parts.append(text(x, BELOW + 17, words, ' text-anchor="middle"'))
            free = x + half + 4
    parts.append('<path d="M%.1f %.1fL%.1f %.1f" class="same"/>' % (LEFT, BELOW, RIGHT, TOP))
    return ''.join(parts) + text(2, 13, 'what the other wells say, m') + text((LEFT + RIGHT) / 2, BELOW + 36, 'level in the list, m', ' text-anchor="middle"')


def mark(each, axes):
    """A well's dot, with a bar of a standard deviation up and down, and its words where the pointer is."""
    x, y, bar = axes.x(each.level), axes.y(each.said), ''
    if each.deviation is not None and math.isfinite(each.deviation):
        bar = '<path d="M%.1f %.1fV%.1f" class="reach"/>' % (x, axes.y(each.said - each.deviation), axes.y(each.said + each.deviation))
    ring = '<circle cx="%.1f" cy="%.1f" r="%.1f" class="ring"/>' % (x, y, DOT * 2.2) if each.doubted else ''
    return '<g>%s%s<circle cx="%.1f" cy="%.1f" r="%.1f" class="dot"/><title>%s</title></g>' % (bar, ring, x, y, DOT, escape(each.words))


def names(told, axes):
    """The names of the wells that doubts name, where there is room."""
    some = [each for each in told if each.doubted]
    places = [(axes.x(each.level), axes.y(each.said)) for each in some]
    labels, _ = well_labels(places, [[short_name(each.name)] for each in some], FONT, DOT * 2.2, Box(LEFT, TOP, BROAD, BELOW))
    return ''.join(text(one.x, one.y, one.text, ' class="halo"') for one in labels if one)


def leave_one_out_chart(m):
    """The chart as SVG; nothing where no well was left out."""
    told = told_wells(m)
    if not told:
        return ''
    axes = Axes(told)
    return ('<svg xmlns="http://www.w3.org/2000/svg" class="chart" viewBox="0 0 %d %d" role="img" aria-labelledby="t-left-out d-left-out">'
            '<title id="t-left-out">Each well as the others tell it</title><desc id="d-left-out">%s</desc>' % (
                BROAD, HIGH, escape('A dot for each of %d wells; on the slanting line the other wells say what the list says.' % len(told)))
            + frame(axes) + ''.join(mark(each, axes) for each in told) + names(told, axes) + '</svg>')
