"""How the page lies on paper: two sheets of A4 at most, the map on the first, and all of the wells with their places.

No part but the map is made lower, and none is cut in two, so that what does not fit goes to the second sheet. What the parts take is estimated, a little
too much rather than too little.
"""
import math
from dataclasses import dataclass

from mapper.page.well_table import joined_marks, pieces, table_words
from mapper.runs.trend_words import trend_sentence
from mapper.runs.verdicts import verdict_advice, verdict_words

SHEET = 274.0                          # mm of A4 between the margins
LEAST, GOOD, MOST = 85.0, 100.0, 160.0  # how high the map is; the legend beside it takes the least
LINE = 3.65                            # mm, a line of text or a row of a table
LETTERS = 125                          # in a line as broad as the sheet


@dataclass
class Layout:
    """How high the map may be, in mm, and by how much all is made smaller: 1, but where two sheets are too few."""
    map_height: float
    shrinking: float


def lines(text, letters=LETTERS):
    """How many lines a text takes where a line has room for so many letters."""
    return max(1, math.ceil(len(text) / letters))


def head(m):
    """The title, the judgements and the notes, in mm."""
    judged = sum(lines(doubt.sentence) + doubt.grave for doubt in m.doubts)
    return 26 + LINE * (judged + sum(lines(note) for note in (trend_sentence(m), *m.notes) if note))


def side(m):
    """The charts and the survey in numbers."""
    return 80.0 if m.left_out else 56.0


def refused(m):
    """The table of verdicts, and what was turned away."""
    found = [v for v, count in m.runs[m.drawn].verdicts.items() if v and count]
    verdicts = sum(max(lines(verdict_words(v, m.columns), 60), lines(verdict_advice(v, m.columns), 60)) for v in found) + (2 if found else 1)
    return 5 + LINE * (verdicts + sum(lines(sentence) for sentence in m.refused))


def wells(m):
    """The wells in their pieces side by side, where a long name takes more than one line; and the page's foot."""
    rows = [lines(f'{well.name} {mark}'.strip(), 9) for well, mark in zip(m.wells, joined_marks(m))]
    length = math.ceil(len(rows) / pieces(m)) or 1
    longest = max((sum(rows[k:k + length]) for k in range(0, len(rows), length)), default=0)
    return 12 + LINE * (2 + longest + lines(table_words(m)))


def layout(m):
    """The layout of a map's page: as many of the parts after the map stay on the first sheet as leave it a good height."""
    first, parts = head(m), (side(m), refused(m), wells(m))
    for least in (GOOD, LEAST):
        for stay in (3, 2, 1, 0):
            room = SHEET - first - sum(parts[:stay])
            if room >= least and sum(parts[stay:]) <= SHEET:
                return Layout(min(MOST, room), 1.0)
    longest = min(max(first + LEAST + sum(parts[:stay]), sum(parts[stay:])) for stay in (2, 1, 0))
    return Layout(LEAST, SHEET / longest)
