"""Everything that the sizes of the map share: the ground, its classes of levels and deviations, contour lines, and what is hatched."""
import math
from array import array
from dataclasses import dataclass, field
from typing import Dict, List, Optional, Tuple

from mapper.drawing import ground as paint
from mapper.drawing.classes import Classes, classes
from mapper.drawing.colours import DEVIATIONS, LEVELS
from mapper.drawing.frame import Ground, field_grid, ground
from mapper.drawing.outside_wells import outside_dots, outside_path, well_hull
from mapper.drawing.raster import dot_picture, grid_picture
from mapper.drawing.thinning import MOST_NODES, Thinned, deviations, thinned, whole_squares
from mapper.drawing.uncertain_lines import parted, uncertain_above


@dataclass
class Scene:
    ground: Ground
    thin: Optional[Thinned]      # None where nodes are drawn as dots
    deviation: array             # a standard deviation a node
    good: bytes                  # 1 for a node that passed, else 0
    level_classes: Classes
    deviation_classes: Classes
    hull: List                   # corners of the wells' hull on the ground
    unsure_above: float          # the standard deviation above which contour lines are dashed
    contours: List = field(default_factory=list)        # for each bound of the levels its lines on the ground
    kinds_of_lines: Tuple[bool, bool] = (False, False)  # whether there are contour lines that are drawn through, and dashed ones
    parts: Dict[str, str] = field(default_factory=dict)  # SVG of level, deviation and lines; paths of failed, outside and border

    @property
    def large(self):
        return len(self.good) > MOST_NODES

    @property
    def dotted(self):
        """Whether nodes are drawn as dots, each a shape of its own."""
        return self.thin is None and not self.large


def good_nodes(verdict, figures):
    """1 for a node that passed and has a figure that is a number, else 0."""
    return bytes(v == 0 and math.isfinite(f) for v, f in zip(verdict, figures))


def classes_of(figures, good, palette):
    """Classes of the figures of good nodes; any will do where there is none."""
    chosen = [f for f, ok in zip(figures, good) if ok]
    return classes(min(chosen), max(chosen), palette) if chosen else classes(0.0, 0.0, palette)


def image(address, box, smooth=False):
    return ('<image href="%s" x="%.2f" y="%.2f" width="%.2f" height="%.2f" preserveAspectRatio="none"%s/>'
            % ((address,) + box + ('' if smooth else ' style="image-rendering:pixelated"',)))


def picture_box(g, grid):
    """Where a grid's picture lies on the ground: half a cell past the outermost nodes."""
    west, east = g.x(grid.x0 - grid.dx / 2), g.x(grid.x0 + (grid.columns - 0.5) * grid.dx)
    south, north = g.y(grid.y0 - grid.dy / 2), g.y(grid.y0 + (grid.rows - 0.5) * grid.dy)
    return west, north, east - west, south - north


def scene(m):
    """The scene of a map."""
    deviation = deviations(m.nodes.variance)
    good = good_nodes(m.nodes.verdict, m.nodes.level)
    sure = good_nodes([not ok for ok in good], deviation)  # good, and the deviation is a number too
    g = ground(m)
    made = Scene(g, None, deviation, good, classes_of(m.nodes.level, good, LEVELS), classes_of(deviation, sure, DEVIATIONS),
                 well_hull(m.wells, g), uncertain_above(m.variogram))
    if not field_grid(m):
        list_parts(m, made, sure)
    elif made.large:
        large_parts(m, made, sure)
    else:
        grid_parts(m, made, sure)
    made.parts['outside'] = outside_dots(m.nodes, made.hull, g) if made.dotted else outside_path(made.hull, g)
    return made


def add_lines(made, lattice, levels, deviation):
    """The contour lines of a field of levels, parted by that of the deviations."""
    drawn = paint.contour_lines(levels, made.level_classes)
    made.contours = paint.on_ground(lattice, drawn)
    pairs = [parted(bound_lines, deviation, made.unsure_above) for bound_lines in drawn]
    certain, unsure = (paint.on_ground(lattice, [pair[k] for pair in pairs]) for k in (0, 1))
    made.kinds_of_lines = any(certain), any(unsure)
    made.parts['lines'] = paint.line_ground(certain, made.level_classes) + paint.line_ground(unsure, made.level_classes, ' class="unsure"')


def list_parts(m, made, sure):
    g, nodes = made.ground, m.nodes
    if made.large:
        box = (0.0, 0.0, float(int(g.width)), float(int(g.height)))
        made.parts = {'level': image(dot_picture(g, nodes, nodes.level, made.good, made.level_classes), box),
                      'deviation': image(dot_picture(g, nodes, made.deviation, sure, made.deviation_classes), box), 'failed': ''}
        return
    made.parts = {'level': paint.dot_ground(g, nodes, nodes.level, made.good, made.level_classes),
                  'deviation': paint.dot_ground(g, nodes, made.deviation, sure, made.deviation_classes),
                  'failed': paint.failed_dots(g, nodes, made.good)}


def large_parts(m, made, sure):
    """Pictures, and contour lines from a thinned grid. The hatching lies under all of the picture and shows where it is clear."""
    g, grid = made.ground, m.grid
    made.thin = thinned(grid.columns, grid.rows)
    whole = whole_squares(made.good, grid.columns, made.thin)
    levels, deviation = ([figures[n] for n in made.thin.numbers(grid.columns)] for figures in (m.nodes.level, made.deviation))
    box = picture_box(g, grid)
    made.parts = {'level': image(grid_picture(m.nodes.level, made.good, grid, made.level_classes), box),
                  'deviation': image(grid_picture(made.deviation, sure, grid, made.deviation_classes), box),
                  'failed': paint.box_path(box[0] + 2, box[1] + 2, box[0] + box[2] - 2, box[1] + box[3] - 2) if 0 in made.good else '',
                  'border': paint.box_path(box[0], box[1], box[0] + box[2], box[1] + box[3])}
    add_lines(made, paint.Lattice(g, grid, made.thin), *(paint.field_of(figures, whole, made.thin) for figures in (levels, deviation)))


def grid_parts(m, made, sure):
    """Bands, quarters of cells beside failed nodes, and contour lines, from every node."""
    grid = m.grid
    made.thin = thinned(grid.columns, grid.rows, len(m.nodes))
    lattice = paint.Lattice(made.ground, grid, made.thin)
    for name, figures, good, kinds in (('level', m.nodes.level, made.good, made.level_classes),
                                       ('deviation', made.deviation, sure, made.deviation_classes)):
        whole = whole_squares(good, grid.columns, made.thin)
        figured = paint.field_of(figures, whole, made.thin)
        made.parts[name] = paint.band_ground(lattice, figured, kinds) + paint.cell_ground(lattice, figures, good, whole, kinds)
        if name == 'level':
            add_lines(made, lattice, figured, paint.field_of(made.deviation, whole, made.thin))
    made.parts['failed'] = paint.failed_cells(lattice, made.good)
    made.parts['border'] = lattice.box(0, 0, grid.columns - 1, grid.rows - 1)


def definitions(made):
    """The shared parts, in an SVG that takes no room itself."""
    groups = ''.join('<g id="ground-%s">%s</g>' % (name, made.parts.get(name, '')) for name in ('level', 'deviation'))
    lines = '<g id="ground-lines" class="lines">%s</g>' % made.parts.get('lines', '')
    failed = '<path id="ground-failed"%s d="%s"/>' % ('' if made.thin else ' class="failed-dots"', made.parts['failed'])
    around = '<path id="ground-hull" class="hull" d="%s"/>' % (paint.ring_path(made.hull) if len(made.hull) > 2 else '')
    outside = '<path id="ground-outside" class="outside" fill-rule="%s" d="%s"/>' % ('nonzero' if made.dotted else 'evenodd', made.parts['outside'])
    # Of a picture only what has a figure is paled, so that the hatching below it shows as everywhere.
    mask = '<mask id="ground-figures" maskUnits="userSpaceOnUse" x="0" y="0" width="%.1f" height="%.1f" style="mask-type:alpha">%s</mask>' % (
        made.ground.width, made.ground.height, '<use href="#ground-level"/>') if made.large else ''
    border = '<path id="ground-border" class="border" d="%s"/>' % made.parts.get('border', '')
    return ('<svg xmlns="http://www.w3.org/2000/svg" class="shared" width="0" height="0" aria-hidden="true"><defs>%s</defs></svg>'
            % (groups + lines + failed + mask + outside + around + border))
