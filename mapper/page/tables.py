"""The page's tables: the runs, the survey in numbers, verdicts."""
import math
from html import escape

from mapper.drawing.frame import ends, field_grid
from mapper.drawing.scales import alike, count, counted, fixed, length_words, plain
from mapper.drawing.semivariogram_chart import model_words
from mapper.runs.trend_words import in_short
from mapper.runs.verdicts import verdict_advice, verdict_words


AS_ENTERED = (0, 0)


def row(cells, tag='td'):
    return '<tr>%s</tr>' % ''.join('<%s%s>%s</%s>' % (tag, ' class="n"' if is_number else '', escape(cell), tag) for cell, is_number in cells)


def table(heads, rows, name=''):
    """A table in a box of its own, which a narrow screen can move sideways."""
    return '<div class="box"><table class="%s"><thead>%s</thead><tbody>%s</tbody></table></div>' % (
        name, row(heads, 'th'), ''.join(map(row, rows)))


def origin_words(run):
    """Which coordinates a run was made with."""
    if tuple(run.origin) == AS_ENTERED:
        return 'coordinates as entered'
    return 'origin moved to (%s, %s)' % (plain(run.origin[0], 10), plain(run.origin[1], 10))


def run_counts(run):
    """How many nodes passed and failed; of a run that was turned away, by which number."""
    if run.refused:
        return [('refused (%d)' % run.refused, True), ('–', True)]
    return [(count(run.passed), True), (count(run.failed), True)]


def run_table(m):
    """How many nodes passed and failed in each run, where there was more than one."""
    if len(m.runs) < 2:
        return ''
    rows = [[(origin_words(run).capitalize() + (' (drawn)' if k == m.drawn else ''), False), *run_counts(run)] for k, run in enumerate(m.runs)]
    return table([('Run', False), ('passed', True), ('failed', True)], rows, 'runs')


def verdict_table(m):
    """The verdicts of the drawn run that are not 0: how many nodes, why, and what to do."""
    moved = tuple(m.runs[m.drawn].origin) != AS_ENTERED
    found = sorted((v, many) for v, many in m.runs[m.drawn].verdicts.items() if v and many)
    rows = [[(str(v), True), (count(many), True), (sentence(verdict_words(v, m.columns)), False),
             (verdict_advice(v, m.columns, moved), False)] for v, many in found]
    return table([('Verdict', True), ('Nodes', True), ('Why', False), ('What to do', False)], rows, 'verdicts') if rows else ''


def sentence(words):
    return words[:1].upper() + words[1:] + '.'


def level_range(values):
    """'45.10 to 49.25 m', to the centimetre where they lie farther apart; one number where they agree, a dash where there is none."""
    if not values:
        return '–'
    low, high = ends(values)
    apart = 0.1 <= high - low and max(abs(low), abs(high)) < 1e6
    low, high = (fixed(low, 2), fixed(high, 2)) if apart else alike((low, high), 3 if high < 0.1 else 5)
    return low + ' m' if low == high else '%s to %s m' % (low, high)


def node_words(m):
    if m.grid is None:
        return counted(len(m.nodes), 'node') + ', from a list'
    if not field_grid(m):
        step = abs(m.grid.dy if m.grid.columns == 1 else m.grid.dx)
        return counted(len(m.nodes), 'node') + (' in a line, %s apart' % length_words(step, 4) if len(m.nodes) > 1 else '')
    return '%s: %s columns, %s rows, %s by %s apart' % (
        counted(len(m.nodes), 'node'), count(m.grid.columns), count(m.grid.rows),
        length_words(abs(m.grid.dx), 4), length_words(abs(m.grid.dy), 4))


def area_words(m):
    """The rectangle around all nodes."""
    if not len(m.nodes):
        return '–'
    (x0, x1), (y0, y1) = ends(m.nodes.x), ends(m.nodes.y)
    broad, high = x1 - x0, y1 - y0
    square = broad * high
    if not square:
        return 'none: a line of %s' % length_words(max(broad, high), 4) if broad or high else 'none: one place'
    size = '%s km²' % plain(square / 1e6, 4) if square >= 1e5 else '%s m²' % plain(square, 4)
    return '%s by %s, %s' % (length_words(broad, 4), length_words(high, 4), size)


def same_spot_row(m):
    """The distance below which places are one spot, where one was asked for, and how many wells it joined to others."""
    joined = sum(well.entered is not None for well in m.wells)
    return [] if m.same_spot is None else [('Same spot', 'nearer than %s, %s joined' % (length_words(m.same_spot, 4), counted(joined, 'well')))]


def numbers(m, made):
    """The survey in numbers: pairs of what and how much."""
    levels = [v for v, ok in zip(m.nodes.level, made.good) if ok]
    deviations = [v for v, ok in zip(made.deviation, made.good) if ok and math.isfinite(v)]
    run = m.runs[m.drawn]
    return [
        ('Wells', '%s, levels %s' % (count(len(m.wells)), level_range([w.level for w in m.wells]))),
        ('Nodes', node_words(m)),
        ('Area of the nodes', area_words(m)),
        ('Arithmetic held', 'at %s of %s' % (count(run.passed), counted(run.passed + run.failed, 'node'))),
        ('Doubts', count(len(m.doubts)) if m.doubts else 'none found in the list'),
        ('Levels at nodes', level_range(levels)),
        ('Standard deviation', level_range(deviations)),
        ('Trend', in_short(m)),
        ('External column', m.external or 'none'),
        ('Model', model_words(m.variogram).rstrip('.')),
        *same_spot_row(m),
        ('Regularization', plain(m.regularization)),
        ('Tolerance', plain(m.tolerance))]


def number_list(m, made):
    return '<dl>%s</dl>' % ''.join('<div><dt>%s</dt><dd>%s</dd></div>' % (escape(a), escape(b)) for a, b in numbers(m, made))
