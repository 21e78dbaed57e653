"""What hovering tells: figures by node, ready to be shown as they stand. A failed node has its verdict and no level."""
import json

from mapper.drawing.scales import plain
from mapper.drawing.thinning import MOST_NODES, block_verdicts
from mapper.hull import hull, inside
from mapper.runs.verdicts import verdict_words


def share(value, whole):
    """A place on the ground as a share of its side."""
    return round(value / whole, 5)


def coordinate(value):
    return plain(value, 10)


def figures(numbers, values, verdicts, tell):
    """A word for each node: its figure, or ! and its verdict."""
    return ['!%d' % v if v else tell(values[n]) for n, v in zip(numbers, verdicts)]


def grid_table(m, made):
    """Columns and rows, and the kept nodes' figures; in a thinned grid a failure counts for all nodes around it."""
    g, grid, thin = made.ground, m.grid, made.thin
    xs = [grid.x0 + c * grid.dx for c in thin.columns]
    ys = [grid.y0 + r * grid.dy for r in thin.rows]
    verdicts = block_verdicts(m.nodes.verdict, grid.columns, grid.rows, thin)
    return xs, ys, thin.numbers(grid.columns), verdicts, thin.step > 1


def list_table(m, made):
    """Every node of a list; of a long one a node for every so many: the first of them that failed, else the first."""
    step = max(1, -(-len(m.nodes) // MOST_NODES))
    blocks = (range(k, min(k + step, len(m.nodes))) for k in range(0, len(m.nodes), step))
    numbers = [next((n for n in block if m.nodes.verdict[n]), block[0]) for block in blocks]
    return [m.nodes.x[n] for n in numbers], [m.nodes.y[n] for n in numbers], numbers, [m.nodes.verdict[n] for n in numbers], step > 1


def outside(m, numbers):
    """A digit for each node: 1 where it lies outside the wells, as the map's table says it."""
    corners = hull([(well.x, well.y) for well in m.wells])
    return ''.join('01'[not inside(corners, m.nodes.x[n], m.nodes.y[n])] for n in numbers)


def told_wells(m, ground):
    """Of each well its place, its name, its level, and what the other wells say of it, empty where they say nothing."""
    others = [left.level for left in m.left_out] or [None] * len(m.wells)
    return [[share(ground.x(w.x), ground.width), share(ground.y(w.y), ground.height), w.name, plain(w.level, 9),
             '' if other is None else plain(other, 6)] for w, other in zip(m.wells, others)]


def table(m, made):
    """All that the page's script needs to tell a node or a well."""
    g = made.ground
    xs, ys, numbers, verdicts, thin = (grid_table if made.thin else list_table)(m, made)
    names = m.nodes.names
    return {
        'list': made.thin is None, 'thin': thin,
        'x': [share(g.x(x), g.width) for x in xs], 'y': [share(g.y(y), g.height) for y in ys],
        'east': [coordinate(x) for x in xs], 'north': [coordinate(y) for y in ys],
        'names': [names[n] for n in numbers] if names else None,
        'level': figures(numbers, m.nodes.level, verdicts, made.level_classes.figure),
        'deviation': figures(numbers, made.deviation, verdicts, made.deviation_classes.figure),
        'variance': figures(numbers, m.nodes.variance, verdicts, lambda v: plain(v, 4)),
        'outside': outside(m, numbers),
        'words': {v: verdict_words(v, m.columns) for v in sorted(set(verdicts)) },
        'wells': told_wells(m, g)}


def script_data(m, made):
    """The table as text that can stand in a page: no < can end the script it stands in."""
    text = json.dumps(table(m, made), ensure_ascii=False, separators=(',', ':'))
    return text.replace('<', '\\u003c').replace('\u2028', '\\u2028').replace('\u2029', '\\u2029')
