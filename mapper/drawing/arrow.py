"""Where the arrow of the trend stands on a map: clear of the wells, near their middle, with its label beside it."""
import math

from mapper.drawing.labels import AROUND, Box, beside, square, turned_boxes

SHARE, LEAST, MOST = 0.18, 46.0, 88.0  # of the frame's shorter side, and within these, is the arrow long
HEAD, HALF = 17.0, 8.5                 # the arrow's head: how long, and half of how broad
GAP = 4.0                              # between the arrow and its label, and around both
INSET = 0.035                          # of the frame's longer side: so far from the frame the arrow lies on the ground, not on its border
PLACES = 24                            # tried along the frame's longer side
ENOUGH = 30.0                          # from the nearest well: what is farther is no better, since the well's label has room as well
NEAR, SPARED = 0.08, 12.0              # what it costs to lie away from the middle, and to cover something, beside a lack of room


class Arrow:
    """An arrow: its middle, its turn in degrees, its length, and its label's box once it has one."""

    def __init__(self, x, y, turn, length, label=None):
        self.x, self.y, self.turn, self.length, self.label = x, y, turn, length, label
        self.across, self.down = math.cos(math.radians(turn)), math.sin(math.radians(turn))

    def along(self, distance):
        """The place on it so far from its middle, towards its tip."""
        return self.x + self.across * distance, self.y + self.down * distance

    def boxes(self):
        """Boxes that together cover it and its label, with a little room around."""
        return turned_boxes(self.x, self.y, self.turn, self.length + 2 * GAP, 2 * HALF) + ([self.label] if self.label else [])

    def path(self):
        """Its outline around (0, 0), pointing to the right: a shaft that grows towards the head."""
        end = self.length / 2
        neck = end - HEAD
        return 'M%.1f -1.2L%.1f -3V-%.1fL%.1f 0L%.1f %.1fV3L%.1f 1.2Z' % (-end, neck, HALF, end, neck, HALF, -end)

    def distance(self, x, y):
        """From the arrow or its label, whichever is nearer, to a place; 0 where that is covered."""
        right, under = x - self.x, y - self.y
        along, aside = abs(right * self.across + under * self.down), abs(under * self.across - right * self.down)
        found = math.hypot(max(along - self.length / 2, 0.0), max(aside - HALF, 0.0))
        if self.label:
            box = self.label
            found = min(found, math.hypot(max(box.left - x, 0.0, x - box.right), max(box.top - y, 0.0, y - box.bottom)))
        return found

    def labelled(self, width, height):
        """It with each label of that size that stands beside its middle or around its tail and does not meet it."""
        mine = turned_boxes(self.x, self.y, self.turn, self.length, HALF) + [square(*self.along((self.length - HEAD) / 2), HALF)]
        for (x, y), gap in ((self.along(0), HALF + GAP), (self.along(-self.length / 2), 2 * GAP)):
            for way in AROUND:
                label = beside(x, y, gap, width, height, way)
                if not any(label.meets(box) for box in mine):
                    yield Arrow(self.x, self.y, self.turn, self.length, label)


class Room:
    """What an arrow has to keep clear of: the frame, and the wells by at least so much; and boxes that it spares where it can."""

    def __init__(self, frame, wells, least, spared):
        inset = INSET * max(frame.right - frame.left, frame.bottom - frame.top)
        self.inner = Box(frame.left + inset, frame.top + inset, frame.right - inset, frame.bottom - inset)
        self.wells, self.least = wells, least
        self.spared = [((box.left + box.right) / 2, (box.top + box.bottom) / 2, (box.right - box.left) / 2) for box in spared]
        self.middle = [sum(along) / len(wells) for along in zip(*wells)]

    def cost(self, arrow):
        """How badly an arrow stands; infinite where it leaves the frame or comes too near to a well."""
        if not all(box.within(self.inner) for box in arrow.boxes()):
            return math.inf
        free = min(arrow.distance(*well) for well in self.wells)
        if free <= self.least:
            return math.inf
        covered = sum(arrow.distance(x, y) < half for x, y, half in self.spared)
        return SPARED * covered + NEAR * math.dist((arrow.x, arrow.y), self.middle) - min(free, ENOUGH)

    def arrows(self, turn):
        """Arrows evenly over the frame."""
        broad, high = self.inner.right - self.inner.left, self.inner.bottom - self.inner.top
        length = min(MOST, max(LEAST, SHARE * min(broad, high)))
        step = max(broad, high) / PLACES
        for row in range(int(high / step) + 1):
            for column in range(int(broad / step) + 1):
                yield Arrow(self.inner.left + column * step, self.inner.top + row * step, turn, length)

    def best(self, arrows):
        """The least cost, and the arrow that has it; None where every arrow's is infinite."""
        cost, arrow = min(((self.cost(arrow), arrow) for arrow in arrows), key=lambda pair: pair[0], default=(math.inf, None))
        return cost, arrow if cost < math.inf else None


def placed(turn, width, height, room):
    """The arrow that stands best in its room with a label so broad and high; None where there is none.

    A label makes no arrow stand better, so that no more are looked at once an arrow alone is worse than the best with its label.
    """
    least, found = math.inf, None
    for alone, arrow in sorted(((room.cost(arrow), arrow) for arrow in room.arrows(turn)), key=lambda pair: pair[0]):
        if alone >= least:
            break
        cost, labelled = room.best(arrow.labelled(width, height))
        if cost < least:
            least, found = cost, labelled
    return found
