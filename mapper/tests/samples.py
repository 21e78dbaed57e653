"""Made-up maps for the tests and for looking at the page: a plane with waves, wells scattered over it, some nodes failed.

    python3 -m mapper.tests.samples FOLDER && mapper/developers/look FOLDER/*.html --to FOLDER
"""
import math
import os
import random
import sys
from array import array

from mapper.records import Bin, Doubt, Grid, LeftOut, Map, Nodes, Run, Source, Variogram, Well
from mapper.runs.refusals import refusal

EAST, NORTH = 3425000.0, 5812000.0
SLOPES = 0.0019, -0.0011  # of the plane: the level falls to the north-west
SOURCE = Source('lower meadows.csv', '0123456789abcdef' * 4, 'fedcba9876543210' * 4, '2026-11-17')
DOUBT = Doubt('Look at W-07 (line 8) first: its neighbours say 47.12 m, the list says 53.1 m. Correct the list, or take the well out.')
GRAVE = Doubt('W-03 (line 4) has the level \u22129999, which stands for a level that is missing. Leave the line out by --skip-unreadable, or enter '
              'the level.', True)


def level_at(x, y):
    u, v = (x - EAST) / 1000, (y - NORTH) / 1000
    return 46 + 1.9 * u - 1.1 * v + 0.8 * math.sin(2.2 * u) * math.cos(1.7 * v)


def plane(origin=(0.0, 0.0), *more):
    """The plane as the trend's estimate, in coordinates from an origin."""
    return (46 - SLOPES[0] * (EAST - origin[0]) - SLOPES[1] * (NORTH - origin[1]), *SLOPES, *more)


def made_wells(count, width=2000.0, height=1500.0, seed=7):
    rng = random.Random(seed)
    wells = []
    for k in range(count):
        x, y = round(EAST + rng.random() * width, 1), round(NORTH + rng.random() * height, 1)
        wells.append(Well('W-%02d' % (k + 1), x, y, round(level_at(x, y), 2), line=k + 2))
    return wells


def told_by_others(wells):
    """What the others might say of each well: a little above and below its level by turns; none where there are too few."""
    if len(wells) < 5:
        return []
    others = lambda k: wells[:k] + wells[k + 1:]
    return [LeftOut(w.level + 0.3 * math.sin(5 * k), variance_at(w.x, w.y, others(k)) ** 0.5) for k, w in enumerate(wells)]


def variance_at(x, y, wells):
    return 0.02 + 1.2 * (1 - math.exp(-min(math.hypot(x - w.x, y - w.y) for w in wells) / 400))


def made_bins(wells, count=12):
    pairs = [(math.hypot(a.x - b.x, a.y - b.y), (a.level - b.level) ** 2 / 2) for i, a in enumerate(wells) for b in wells[:i]]
    width = max((h for h, _ in pairs), default=1.0) / count or 1.0
    bins = []
    for k in range(count):
        mine = [g for h, g in pairs if min(int(h / width), count - 1) == k]
        if mine:
            bins.append(Bin((k + 0.5) * width, sum(mine) / len(mine), len(mine)))
    return bins


def counts(verdict):
    return {v: verdict.count(v) for v in sorted(set(verdict))}


def made_map(xs, ys, grid, wells, failed, names=None, **more):
    """A map of nodes at these places; `failed` gives a place its verdict."""
    verdict = bytearray(failed(x, y) for x, y in zip(xs, ys))
    level = array('d', (math.nan if v == 255 else level_at(x, y) for x, y, v in zip(xs, ys, verdict)))
    near = wells if len(xs) < 20000 else wells[:6]
    variance = array('d', (variance_at(x, y, near) for x, y in zip(xs, ys)))
    bins = made_bins(wells)
    made = dict(
        title='Lower meadows', wells=wells, nodes=Nodes(array('d', xs), array('d', ys), level, variance, verdict, names), grid=grid,
        variogram=Variogram('spherical', 0.02, 1.9, 1450.0, 'fitted'), bins=bins, trend='linear', external=None,
        regularization=1e-10, tolerance=1e-6, columns=['1', 'x', 'y'], runs=[Run((0.0, 0.0), counts(verdict), estimate=plane())], drawn=0,
        notes=[], left_out=told_by_others(wells), source=SOURCE)
    made.update(more)
    return Map(**made)


def grid_map(columns=40, rows=30, wells=30, failed=None, width=2000.0, height=1500.0, **more):
    grid = Grid(EAST, NORTH, width / max(1, columns - 1), height / max(1, rows - 1), columns, rows)
    xs = [grid.x0 + c * grid.dx for r in range(rows) for c in range(columns)]
    ys = [grid.y0 + r * grid.dy for r in range(rows) for c in range(columns)]
    return made_map(xs, ys, grid, made_wells(wells, width, height), failed or (lambda x, y: 0), **more)


def some_failed(x, y):
    """A patch in the north-east by column y, two by rounding, one not finite."""
    u, v = (x - EAST) / 2000, (y - NORTH) / 1500
    if (u - 0.78) ** 2 + (v - 0.75) ** 2 < 0.012:
        return 3
    if abs(u - 0.21) < 0.014 and abs(v - 0.34) < 0.02:
        return 4
    return 255 if u < 0.01 and v < 0.01 else 0


def two_runs(**more):
    """A map that was run again with the origin moved."""
    m = grid_map(failed=some_failed, **more)
    m.runs = [Run((0.0, 0.0), {2: 700, 3: 500}, estimate=(1e9, -7.0, 3.0)), Run((EAST, NORTH), m.runs[0].verdicts, estimate=plane((EAST, NORTH)))]
    m.drawn = 1
    m.notes = ['With coordinates as entered no node passed; the origin was moved to (3425000, 5812000) and all nodes were run again.',
               'The spherical model was fitted to 12 bins.',
               'Line 14 of the list was left out: its level is empty.']
    return m


def turned_away(**more):
    """A map that was refused as entered and drawn moved, with bins that were not fitted."""
    m = two_runs(**more)
    m.runs[0] = Run((0.0, 0.0), {}, 19)
    for far in m.bins[7:]:
        far.used = False
    m.notes = ['With coordinates as entered the map is refused by 19; with the origin moved to (3425000, 5812000) 1,157 of 1,200 nodes pass; '
               'the map is drawn with the origin moved.']
    m.refused = ['As entered the map is turned away. %s' % refusal(19, m.wells, m.trend)]
    return m


def list_map(count=60, **more):
    rng = random.Random(3)
    xs = [EAST + rng.random() * 2000 for _ in range(count)]
    ys = [NORTH + rng.random() * 1500 for _ in range(count)]
    names = ['K%d' % (k + 1) for k in range(count)]
    return made_map(xs, ys, None, made_wells(18), lambda x, y: 3 if x > EAST + 1700 else 0, names=names, **more)


def none_passed(**more):
    return grid_map(failed=lambda x, y: 2 if x < EAST + 900 else 3, **more)


def large_map(columns=400, rows=250, **more):
    return grid_map(columns, rows, failed=some_failed, **more)


def crowded(**more):
    """As many wells as the program takes, with names as spreadsheets have them, and an external column."""
    wells = made_wells(48, seed=11)
    for k, name in ((3, 'Brunnen <Süd> & "Nord" am alten Wasserwerk'), (9, '深井十二号'), (20, "O'Neill's")):
        wells[k].name = name
    m = grid_map(60, 50, failed=some_failed, **more)
    m.wells, m.left_out, m.title = wells, told_by_others(wells), 'Röst & Co <Lower meadows> 2024'
    m.external, m.columns = 'surface "DEM"', ['1', 'x', 'y', 'surface "DEM"']
    m.notes = two_runs().notes
    m.runs[0].estimate = plane((0.0, 0.0), 0.42)
    m.runs.append(m.runs[0])
    m.refused = ['Line 51: the coordinates are those of line 12, and two wells at one place cannot both be used.']
    return m


def tall_map(**more):
    """A valley from south to north, three wells."""
    return grid_map(8, 40, wells=3, width=300.0, height=1500.0, **more)


def with_doubts(m, *more):
    """A map with a level that the other wells do not bear out, and further doubts."""
    m.doubts = [DOUBT, *more]
    m.wells[6].level, m.left_out[6] = 53.1, LeftOut(47.12, 0.31)
    m.left_out[4] = LeftOut(None)
    return m


def doubted(**more):
    return with_doubts(grid_map(**more), Doubt('W-12 (line 13) stands 3 km from all others. Look at its coordinates.'))


def grave(**more):
    """A list that cannot be one of a water table, drawn all the same."""
    m = with_doubts(grid_map(**more), GRAVE)
    m.wells[2].level, m.left_out[2] = -9999.0, LeftOut(199.6, 0.4)
    away = lambda x, y: math.dist((x, y), (m.wells[2].x, m.wells[2].y)) / 300
    m.nodes.level = array('d', (v - 6000 * math.exp(-away(x, y)) for x, y, v in zip(m.nodes.x, m.nodes.y, m.nodes.level)))
    return m


def failed_and_doubted(**more):
    return with_doubts(two_runs(**more))


SAMPLES = {'crowded': crowded, 'tall': tall_map, 'plain': grid_map, 'two_runs': two_runs, 'turned_away': turned_away, 'list': list_map,
           'none': none_passed, 'large': large_map, 'doubted': doubted, 'grave': grave, 'failed_and_doubted': failed_and_doubted}


def write_pages(folder):
    """The page of every sample, in a folder."""
    from mapper.page.page import page
    for name, make in SAMPLES.items():
        with open(os.path.join(folder, name + '.html'), 'w', encoding='utf-8') as file:
            file.write(page(make()))


if __name__ == '__main__':
    write_pages(sys.argv[1])
