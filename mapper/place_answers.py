"""What is known at a place that was asked for by --at, in a sentence."""
from mapper.doubts.well_words import level, place
from mapper.hull import where_of
from mapper.numbers import deviation
from mapper.runs.origin import AS_ENTERED
from mapper.runs.verdicts import verdict_advice, verdict_words


def spread_words(variance):
    """The standard deviation to the centimetre, and no better than that."""
    found = deviation(variance)
    return 'standard deviation not known' if found is None else f'± {max(found, 0.01):.2f} m (standard deviation)'


def depth_words(water, ground):
    """How deep the water stands below the ground."""
    below = ground - water
    if below >= 0:
        return f', {below:.2f} m below the ground at {level(ground)} m'
    return f', {-below:.2f} m above the ground at {level(ground)} m: it would flow out there, or a height is wrong'


def answers(m, asked, ground_known):
    """A sentence for each place; the third number of one is the ground's height where `ground_known`."""
    where, moved = where_of(m.wells), m.runs[m.drawn].origin != AS_ENTERED
    for i, spot in enumerate(asked):
        water, variance, verdict = m.nodes.level[i], m.nodes.variance[i], m.nodes.verdict[i]
        at = f'At {place(*spot[:2])}, {where(*spot[:2])}: '
        if verdict:
            yield f'{at}no level, since {verdict_words(verdict, m.columns)}. {verdict_advice(verdict, m.columns, moved)}'
            continue
        depth = depth_words(water, spot[2]) if ground_known and len(spot) == 3 else ''
        yield f'{at}{level(water)} m {spread_words(variance)}{depth}; the arithmetic held.'
