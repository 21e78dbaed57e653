"""Where names and numbers stand on a map, so that none covers another.

Widths are estimated for a broad font: with a narrower one the labels only stand further apart.
"""
import math
import unicodedata
from dataclasses import dataclass
from typing import List, NamedTuple, Optional, Tuple

LONGEST_NAME = 16  # letters on the map; tables have names whole


class Box(NamedTuple):
    left: float
    top: float
    right: float
    bottom: float

    def meets(self, other):
        return self.left < other.right and other.left < self.right and self.top < other.bottom and other.top < self.bottom

    def shared(self, other):
        """How much of the other it covers."""
        broad, high = min(self.right, other.right) - max(self.left, other.left), min(self.bottom, other.bottom) - max(self.top, other.top)
        return broad * high if broad > 0 and high > 0 else 0.0

    def within(self, other):
        return self.left >= other.left and self.right <= other.right and self.top >= other.top and self.bottom <= other.bottom


def letter_width(letter):
    """In parts of the font's size."""
    if unicodedata.combining(letter):
        return 0.0
    if unicodedata.east_asian_width(letter) in 'WF':
        return 1.05
    if letter in "ijlI.,:;'|!()[]\u202f\u2009 ":
        return 0.4
    if letter in 'mwMW@%—':
        return 1.0
    if letter.isdigit() or letter.islower():
        return 0.63
    return 0.75


def text_width(text, size):
    return size * sum(map(letter_width, text))


def short_name(name):
    """A name short enough for the map."""
    name = ' '.join(name.split())
    return name if len(name) <= LONGEST_NAME else name[:LONGEST_NAME - 1] + '…'


@dataclass
class Label:
    """A text, and where it stands: its box, and its left end on the line of writing."""
    text: str
    box: Box
    x: float
    y: float


# The places around a well, best first: which way the label's box lies from the well, across and down.
AROUND = ((1, -1), (1, 0), (1, 1), (-1, -1), (-1, 0), (-1, 1), (0, -1), (0, 1))


def beside(x, y, gap, width, height, way):
    """The box of a label that lies a given way from a well."""
    across, down = way
    slant = gap * 0.7 if across and down else gap
    left = x + slant if across > 0 else x - slant - width if across < 0 else x - width / 2
    top = y + slant - height * 0.25 if down > 0 else y - slant - height * 0.75 if down < 0 else y - height / 2
    if not across:
        top = y + gap if down > 0 else y - gap - height
    return Box(left, top, left + width, top + height)


def free_place(x, y, text, size, gap, frame, taken, better):
    """A label around a well that stays in the frame and meets nothing that is there: the first of those that cover least of `better`."""
    width, height = text_width(text, size) + 2, size * 1.15
    boxes = [beside(x, y, gap, width, height, way) for way in AROUND]
    free = [box for box in boxes if box.within(frame) and not any(box.meets(other) for other in taken)]
    if not free:
        return None
    box = min(free, key=lambda box: sum(box.shared(other) for other in better))
    return Label(text, box, box.left + 1, box.bottom - size * 0.3)


def square(x, y, half):
    return Box(x - half, y - half, x + half, y + half)


def well_labels(places, texts, size, radius, frame, better=(), kept=()) -> Tuple[List[Optional[Label]], List[Box]]:
    """A label or None for each well, and every box that is taken now, the wells' own and those `kept` for others included.

    `texts` has for each well what may be written, the most wanted first. All wells try their first text before any tries its second. A label
    keeps away from other wells, so that it is not taken for theirs, and from the boxes `better` left free, if it can.
    """
    taken = [square(x, y, radius) for x, y in places] + list(kept)
    wide = [square(x, y, radius + size * 0.5) for x, y in places]
    labels = [None] * len(places)
    for attempt in range(max(map(len, texts), default=0)):
        for at, (x, y) in enumerate(places):
            if labels[at] is None and attempt < len(texts[at]):
                others = wide[:at] + wide[at + 1:] + list(better)
                labels[at] = free_place(x, y, texts[at][attempt], size, radius + 2, frame, taken, others)
                if labels[at]:
                    taken.append(labels[at].box)
    return labels, taken


@dataclass
class LineLabel:
    """A text along a contour line: its middle, its turn in degrees, and the boxes that it takes."""
    text: str
    x: float
    y: float
    turn: float
    boxes: List[Box]


def lengths(line):
    """How far each place of a line lies from its start, along the line."""
    total = [0.0]
    for (ax, ay), (bx, by) in zip(line, line[1:]):
        total.append(total[-1] + math.hypot(bx - ax, by - ay))
    return total


def along(line, total, distance):
    """The place of a line at a distance from its start."""
    low, high = 0, len(total) - 1
    while high - low > 1:
        middle = (low + high) // 2
        low, high = (middle, high) if total[middle] <= distance else (low, middle)
    stretch = total[high] - total[low]
    part = (distance - total[low]) / stretch if stretch else 0.0
    (ax, ay), (bx, by) = line[low], line[high]
    return ax + (bx - ax) * part, ay + (by - ay) * part


def turned_boxes(x, y, turn, width, height):
    """Small boxes that together cover a turned label."""
    count = max(2, math.ceil(width / height))
    half = height / 2 * (1 + 0.4 * abs(math.sin(2 * math.radians(turn))))
    reach = max(0.0, width / 2 - height / 2)
    boxes = []
    for k in range(count):
        away = reach * (2 * k / (count - 1) - 1)
        cx, cy = x + away * math.cos(math.radians(turn)), y + away * math.sin(math.radians(turn))
        boxes.append(Box(cx - half, cy - half, cx + half, cy + half))
    return boxes


def line_label(line, text, size, frame, taken, first=0.0, last=1.0):
    """A label on the straightest free stretch between two shares of a line, or None."""
    total = lengths(line)
    width, height = text_width(text, size) + 4, size * 1.1
    best = None
    distance = max(width, total[-1] * first)
    while distance <= min(total[-1] - width, total[-1] * last):
        (ax, ay), (x, y), (bx, by) = (along(line, total, distance + d) for d in (-width / 2, 0, width / 2))
        bend = abs((bx - ax) * (y - ay) - (by - ay) * (x - ax)) / (math.hypot(bx - ax, by - ay) or 1.0)
        chord = width - math.hypot(bx - ax, by - ay)
        off = bend + chord + 0.004 * abs(distance - total[-1] * (first + last) / 2)
        if chord < width * 0.15 and (best is None or off < best[0]):
            turn = math.degrees(math.atan2(by - ay, bx - ax))
            turn = turn - 180 if turn > 90 else turn + 180 if turn <= -90 else turn
            boxes = turned_boxes(x, y, turn, width, height)
            if all(b.within(frame) and not any(b.meets(o) for o in taken) for b in boxes):
                best = off, LineLabel(text, x, y, turn, boxes)
        distance += size / 2
    return best[1] if best else None


def line_labels(lines_of, texts, size, frame, taken, apart=420.0):
    """Labels along contour lines, about one for each `apart` of length; what they take is added to `taken`."""
    labels = []
    for lines, text in zip(lines_of, texts):
        for line in sorted(lines, key=lambda one: -lengths(one)[-1]):
            whole = lengths(line)[-1]
            wanted = max(1, int(whole / apart))
            for k in range(wanted):
                label = line_label(line, text, size, frame, taken, k / wanted, (k + 1) / wanted)
                if label:
                    labels.append(label)
                    taken.extend(label.boxes)
    return labels
