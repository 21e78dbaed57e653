"""The coloured ground of a map as SVG: bands between contour lines, cells beside failed nodes, dots of a list; and which parts are hatched.

It is written once, in units of frame.Ground, and shown by every size of the map.
"""
from mapper.drawing.colours import hexadecimal, line_colour
from mapper.drawing.contours import Field, areas, lines


def number(value):
    """A length on the ground, to a tenth of a unit."""
    text = '%.1f' % value
    return text[:-2] if text.endswith('.0') else text


def ring_path(places):
    return 'M' + 'L'.join('%s %s' % (number(x), number(y)) for x, y in places) + 'Z'


def box_path(west, north, east, south):
    return 'M%s %sH%sV%sH%sZ' % tuple(map(number, (west, north, east, south, west)))


def dot_path(x, y, radius):
    around = 'a%s %s 0 1 0 ' % (number(radius), number(radius))
    return 'M%s %s%s%s 0%s%s 0Z' % (number(x - radius), number(y), around, number(2 * radius), around, number(-2 * radius))


def filled(path, colour, seams=False):
    """A path in one colour; with `seams` a thin line of the same colour closes the gap that a screen leaves towards what is painted next to it."""
    if not path:
        return ''
    colour = hexadecimal(colour)
    line = ' stroke="%s" stroke-width="1.6" vector-effect="non-scaling-stroke"' % colour if seams else ''
    return '<path d="%s" fill="%s"%s/>' % (path, colour, line)


class Lattice:
    """Where the kept nodes of a grid lie on the ground, and places between them."""

    def __init__(self, ground, grid, thin):
        self.ground, self.grid, self.thin = ground, grid, thin

    def place(self, at):
        """The place on the ground of a column and row, with parts, counted in kept ones."""
        return (self.ground.x(self.grid.x0 + between(self.thin.columns, at[0]) * self.grid.dx),
                self.ground.y(self.grid.y0 + between(self.thin.rows, at[1]) * self.grid.dy))

    def box(self, west, south, east, north):
        """The path of a rectangle of cells, from the corner of one to the corner of another, in columns and rows with parts."""
        (left, low), (right, high) = self.place((west, south)), self.place((east, north))
        return box_path(left, high, right, low)


def between(kept, at):
    """The column or row, with its part, that lies `at` kept ones from the first."""
    first = min(int(at), len(kept) - 2)
    return kept[first] + (at - first) * (kept[first + 1] - kept[first])


def band_ground(lattice, field, classes):
    """Bands by class, each painted over the ones below it."""
    painted = []
    for k, colour in enumerate(classes.colours):
        rings = areas(field, classes.bounds[k - 1] if k else None)
        painted.append(filled(''.join(ring_path(map(lattice.place, ring)) for ring in rings), colour))
    return ''.join(painted)


def cell_ground(lattice, figures, good, whole, classes):
    """Quarters of squares that are not whole, in the colour of the node at their corner, if it has a figure."""
    columns = len(lattice.thin.columns)
    paths = [''] * len(classes.colours)
    for at, is_whole in enumerate(whole):
        if not is_whole:
            r, c = divmod(at, columns - 1)
            for column, row in ((c, r), (c + 1, r), (c, r + 1), (c + 1, r + 1)):
                node = row * columns + column
                if good[node]:
                    west, south = c + 0.5 * (column - c), r + 0.5 * (row - r)
                    paths[classes.of(figures[node])] += lattice.box(west, south, west + 0.5, south + 0.5)
    return ''.join(filled(path, colour, True) for path, colour in zip(paths, classes.colours))


def failed_cells(lattice, good):
    """The path around the cells of nodes without a figure, joined along a row, and cut off at the outermost nodes as the bands are."""
    columns, rows = len(lattice.thin.columns), len(lattice.thin.rows)
    path = []
    for r in range(rows):
        c = 0
        while c < columns:
            first = c
            while c < columns and not good[r * columns + c]:
                c += 1
            if c > first:
                path.append(lattice.box(max(first - 0.5, 0), max(r - 0.5, 0), min(c - 0.5, columns - 1), min(r + 0.5, rows - 1)))
            c = max(c, first + 1)
    return ''.join(path)


def contour_lines(field, classes):
    """For each bound its lines, in columns and rows of the field."""
    return [lines(field, bound) for bound in classes.bounds]


def on_ground(lattice, drawn):
    """Lines of each bound as they lie on the ground."""
    return [[[lattice.place(at) for at in line] for line in bound_lines] for bound_lines in drawn]


def line_path(bound_lines):
    return ''.join('M' + 'L'.join('%s %s' % (number(x), number(y)) for x, y in line) for line in bound_lines)


def line_ground(drawn, classes, kind=''):
    """Contour lines as SVG; on dark classes they are light."""
    painted = []
    for k, bound_lines in enumerate(drawn):
        if bound_lines:
            painted.append('<path d="%s" stroke="%s"%s/>' % (line_path(bound_lines), line_colour(classes.colours[k + 1]), kind))
    return ''.join(painted)


def field_of(figures, whole, thin):
    return Field(figures, len(thin.columns), len(thin.rows), whole)


def dot_radius(count):
    """The radius of a dot: as large as leaves room for wells' names between so many, within reason."""
    return max(4.5, min(15.0, 150 / max(1, count) ** 0.5))


def dot_ground(ground, nodes, figures, good, classes):
    """Dots of nodes that have a figure, by class."""
    radius = dot_radius(len(nodes))
    paths = [[] for _ in classes.colours]
    for at, figure in enumerate(figures):
        if good[at]:
            paths[classes.of(figure)].append(dot_path(ground.x(nodes.x[at]), ground.y(nodes.y[at]), radius))
    return ''.join('<path d="%s" fill="%s" stroke="#333" stroke-width="0.7" vector-effect="non-scaling-stroke"/>'
                   % (''.join(path), hexadecimal(colour)) for path, colour in zip(paths, classes.colours) if path)


def failed_dots(ground, nodes, good):
    radius = dot_radius(len(nodes))
    return ''.join(dot_path(ground.x(nodes.x[at]), ground.y(nodes.y[at]), radius) for at in range(len(nodes)) if not good[at])
