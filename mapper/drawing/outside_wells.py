"""What the wells do not tell: the ground outside their hull, which is paled, and labelled where there is room."""
from mapper.drawing.frame import ends
from mapper.drawing.ground import box_path, dot_path, dot_radius, ring_path
from mapper.drawing.labels import Box, text_width
from mapper.hull import hull, inside, turn

LABELS = (('outside the wells',), ('outside', 'the wells'))  # the most wanted first, each a list of lines
ROOM = (12.0, 6.0, 2.0)                                      # around the label: as much as there is
PLACES = 36                                                  # tried along the longer side


def well_hull(wells, ground):
    """The corners of the wells' hull on the ground, where y runs down: so the other way around, to be counter-clockwise there too."""
    return [(ground.x(x), ground.y(y)) for x, y in reversed(hull([(well.x, well.y) for well in wells]))]


def outside_path(corners, ground):
    """The path around all of the ground, with the hull left out of it; a hull without an area leaves out nothing."""
    return box_path(0, 0, ground.width, ground.height) + (ring_path(corners) if len(corners) > 2 else '')


def outside_dots(nodes, corners, ground):
    """The path around the dots of a list that lie outside the wells, whole as they are."""
    places = ((ground.x(x), ground.y(y)) for x, y in zip(nodes.x, nodes.y))
    return ''.join(dot_path(x, y, dot_radius(len(nodes))) for x, y in places if len(corners) < 3 or not inside(corners, x, y))


def any_outside(nodes, grid, corners, ground):
    """Whether some node lies outside the wells. A hull has no bays: it holds all nodes where it holds the corners of the rectangle around them."""
    if len(corners) < 3 or not len(nodes):
        return True
    is_inside = lambda x, y: inside(corners, ground.x(x), ground.y(y))
    if all(is_inside(x, y) for x in ends(nodes.x) for y in ends(nodes.y)):
        return False
    return grid is not None or not all(map(is_inside, nodes.x, nodes.y))


def clear_of(box, corners):
    """Whether a box lies wholly outside a hull: beside it, above or below it, or beyond one of its edges."""
    if len(corners) < 3:
        return True
    xs, ys = zip(*corners)
    if max(xs) <= box.left or min(xs) >= box.right or max(ys) <= box.top or min(ys) >= box.bottom:
        return True
    around = (box.left, box.top), (box.right, box.top), (box.right, box.bottom), (box.left, box.bottom)
    return any(all(turn(a, b, place) <= 0 for place in around) for a, b in zip(corners, corners[1:] + corners[:1]))


def places(area, width, height):
    """Boxes of a size evenly over an area, row after row."""
    broad, high = area.right - area.left - width, area.bottom - area.top - height
    if broad < 0 or high < 0:
        return
    step = max(area.right - area.left, area.bottom - area.top) / PLACES
    for row in range(int(high / step) + 1):
        for column in range(int(broad / step) + 1):
            left, top = area.left + column * step, area.top + row * step
            yield Box(left, top, left + width, top + height)


def grown(box, by):
    return Box(box.left - by, box.top - by, box.right + by, box.bottom + by)


def label_place(corners, area, taken, size):
    """The lines of the label and the box that they stand in, outside the hull, within an area, clear of what is taken; None where there is no room."""
    for lines in LABELS:
        width, height = max(text_width(line, size) for line in lines), size * 1.15 * len(lines)
        for room in ROOM:
            for box in places(area, width + 2 * room, height + 2 * room):
                if clear_of(box, corners) and not any(box.meets(other) for other in taken):
                    return lines, grown(box, -room)
    return None
