"""The hull of the wells: the shape that a string has which is pulled tight around them. What lies outside of it is not between wells."""

AMONG, OUTSIDE = 'among the wells', 'outside the wells'
SLACK = 1e-9  # of an edge's length: a node on an edge is inside, whatever rounding does


def turn(a, b, c):
    """Above zero where the way from a by b to c turns left: twice the area of the triangle."""
    return (b[0] - a[0]) * (c[1] - a[1]) - (b[1] - a[1]) * (c[0] - a[0])


def half(points):
    """The lower side of the hull of points in order from west to east, without its last corner."""
    corners = []
    for point in points:
        while len(corners) > 1 and turn(corners[-2], corners[-1], point) <= 0:
            corners.pop()
        corners.append(point)
    return corners[:-1]


def hull(points):
    """The corners of the hull, counter-clockwise: two where all points lie on a line, one where they are one spot."""
    ordered = sorted({(x, y) for x, y in points})
    return half(ordered) + half(ordered[::-1]) if len(ordered) > 1 else ordered


def inside(corners, x, y):
    """Whether a place lies within a hull or on its edge."""
    if len(corners) < 2:
        return (x, y) in corners
    for (ax, ay), (bx, by) in zip(corners, corners[1:] + corners[:1]):
        east, north = bx - ax, by - ay
        slack = SLACK * (east * east + north * north)
        if east * (y - ay) - north * (x - ax) < -slack:
            return False
        if len(corners) == 2 and east * (x - ax) + north * (y - ay) < -slack:
            return False
    return True


def where_of(wells):
    """Says of a place, by its x and y, whether it lies among these wells."""
    corners = hull((well.x, well.y) for well in wells)
    return lambda x, y: AMONG if inside(corners, x, y) else OUTSIDE
