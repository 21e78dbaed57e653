"""Which wells the doubts name, so that the map, the chart and the table mark them."""
import re

LINES = re.compile(r'(?i)\blines? (\d+(?:(?:, | and |, and )\d+)*)')


def named_lines(doubts):
    """The lines of the list that the doubts name: '(line 32)', 'Lines 2, 7 and 32'."""
    return {int(line) for doubt in doubts for group in LINES.findall(doubt.sentence) for line in re.findall(r'\d+', group)}


def doubted_wells(m):
    """Of each well whether a doubt names the line that it stands in."""
    named = named_lines(m.doubts)
    return [well.line in named for well in m.wells]
