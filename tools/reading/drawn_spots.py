"""Same-spot distances for calls that are drawn: most of them beside a distance that occurs, or at it; usual ones; and seldom one that 22 refuses."""
from tools.generators.spots import beside, occurring
from tools.reading import edges

USUAL = [*edges.TAKEN_SPOTS, 1e-6, 0.01, 5.0, 20.0, 100.0, 1e4]


def rows(numbers, columns):
    """Points row by row; what is left over of a list that is too long is no point."""
    return [numbers[at:at + columns] for at in range(0, len(numbers) - columns + 1, columns)]


def spot(draw, points, targets):
    """A same-spot distance for a call with these points and targets."""
    kind = draw.randrange(12)
    apart = occurring(points, points) + occurring(points, targets) if kind < 8 else []
    if apart:
        return draw.choice(beside(draw.choice(apart)))
    return draw.choice(USUAL if kind < 11 else edges.WRONG_SPOTS)


def spotted_fit(draw, call):
    """A fit that is drawn, with a same-spot distance of its own."""
    return call._replace(variogram=(*call.variogram, spot(draw, rows(call.coords, 2), rows(call.nodes, 2))))


def spotted_query(draw, call):
    """An interpolation that is drawn, likewise."""
    return call._replace(variogram=(*call.variogram, spot(draw, rows(call.coords, call.d), rows(call.targets, call.d))))
