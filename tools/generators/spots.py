"""What the calls with a same-spot distance are drawn from: wells and nodes in yards, and distances that occur, with the numbers beside them."""
import math

from tools.reading.variogram import EXPONENTIAL, GAUSSIAN, LINEAR, SPHERICAL, distance

MODELS = (SPHERICAL, EXPONENTIAL, GAUSSIAN, LINEAR)
# a millimetre, where coordinates are metres, and half a unit
SPOTS = (1e-3, 0.5)


def beside(x):
    """A number with the f64 below it and the one above."""
    return [math.nextafter(x, -math.inf), x, math.nextafter(x, math.inf)]


def away(draw, point, reach):
    """A point within reach of another."""
    left = reach * draw.uniform(0.05, 0.95)
    steps = [draw.gauss(0.0, 1.0) for _ in point]
    length = math.hypot(*steps)
    return [x + left * step / length for x, step in zip(point, steps)]


def yards(draw, count, axes, span, spot):
    """Points of which every second one stands in the yard of the one before, nearer to it than the field."""
    points = []
    for at in range(count):
        points.append(away(draw, points[-1], spot) if at % 2 else [round(draw.uniform(0.0, span), 2) for _ in range(axes)])
    return points


def nodes_at(draw, wells, count, span, spot):
    """Nodes by turns in a well's yard, anywhere, and on a well."""
    def node(turn):
        well = draw.choice(wells)
        return [away(draw, well, spot), [round(draw.uniform(0.0, span), 2) for _ in well], list(well)][turn % 3]

    return [node(turn) for turn in range(count)]


def occurring(points, others):
    """The distances between two lists of points that are above zero, the least first."""
    return sorted({h for i, a in enumerate(points) for b in (others[:i] if points is others else others) if (h := distance(a, b)) > 0.0})


def lattice(draw, count, axes):
    """Points at whole numbers, all of them others: many distances occur more than once."""
    points = []
    while len(points) < count:
        point = [float(draw.randrange(0, 7)) for _ in range(axes)]
        if point not in points:
            points.append(point)
    return points


def levels(draw, count):
    return [round(draw.uniform(20, 90), 2) for _ in range(count)]
