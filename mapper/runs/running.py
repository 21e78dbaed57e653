"""One way through all the nodes: sheets side by side, the answers into their places."""
from collections import Counter, deque
from concurrent.futures import ThreadPoolExecutor

from mapper.records import Run
from mapper.runs.answers import Damaged
from mapper.runs.survey_file import packed

AHEAD = 4  # sheets under way for each process, so that memory stays bounded however many there are


def run(way, sheets, jobs, step=lambda nodes: None, keep=None):
    """Runs every sheet by a way (runs/ways.py) and fills in its nodes, in order. `step` is told how many nodes are done; `keep`, where given, takes what
    the program printed.

    Raises Refused as soon as a sheet is refused.
    """
    waiting = deque()
    with ThreadPoolExecutor(jobs) as pool:
        for sheet in range(len(sheets)):
            waiting.append((sheet, pool.submit(way.answer, sheets, sheet)))
            if len(waiting) >= AHEAD * jobs:
                take(sheets, *waiting.popleft(), step, keep, way)
        while waiting:
            take(sheets, *waiting.popleft(), step, keep, way)
    return tally(sheets)


def take(sheets, sheet, coming, step, keep, way):
    """Waits for a sheet's answer and fills in its nodes."""
    try:
        found = coming.result()
        fill(sheets, sheet, found)
    except Damaged as damaged:
        raise way.damaged(f'sheet {sheet + 1}', damaged)
    if keep is not None:
        keep(found.printed)
    first, end = sheets.span(sheet)
    step(end - first)


def fill(sheets, sheet, found):
    """Puts a sheet's answer into the nodes' places."""
    first, end = sheets.span(sheet)
    nodes = sheets.nodes
    sheets.estimate = same_trend(sheets, found.trend)
    for i, (level, variance) in enumerate(zip(found.levels, found.variances), first):
        nodes.level[i], nodes.variance[i] = level, variance
    nodes.verdict[first:end] = found.verdicts


def same_trend(sheets, trend):
    """The trend that a sheet has. It does not depend on the nodes, so that all sheets have it alike, by its bits: a NaN is no number that equals another."""
    if len(trend) != sheets.columns:
        raise Damaged('its trend has %d columns, and that of the survey %d' % (len(trend), sheets.columns))
    if sheets.estimate and packed(trend) != packed(sheets.estimate):
        raise Damaged('its trend is not that of the sheets before it, and one of them is of other wells or of another program')
    return trend


def tally(sheets):
    """The run that the nodes have been through."""
    return Run(sheets.origin, dict(sorted(Counter(sheets.nodes.verdict).items())), estimate=sheets.estimate)
