"""The same-spot distance by other sentences than the paper's: cases and stored answers have to tell each of them from the right one."""
import math
from contextlib import ExitStack
from unittest.mock import patch

from tools.reading import elimination, fit
from tools.reading.floats import running_sum
from tools.reading.variogram import SAME_SPOT, Variogram, distance


def at_or_below(self, h):
    """"A distance equal to the field is not the same spot", read the other way."""
    return 0.0 if h <= self.same_spot else self.by_formula(h)


def not_read(self, h):
    """2^-52 as before."""
    return 0.0 if h < SAME_SPOT else self.by_formula(h)


def nugget_below(self, h):
    """The nugget in place of 0."""
    return self.nugget if h < self.same_spot else self.by_formula(h)


def counted_from_it(self, h):
    """The distance that is left past it."""
    return 0.0 if h < self.same_spot else self.by_formula(h - self.same_spot)


def by_squares(self, h):
    """Squares compared in place of distances. No two that are not huge have one square, so this shows in no call."""
    return 0.0 if h * h < self.same_spot * self.same_spot else self.by_formula(h)


def cut_at_range(self, h):
    """The field where it is below the range, else the range."""
    return 0.0 if h < min(self.same_spot, self.range) else self.by_formula(h)


EVALUATED = {
    "the field is the same spot too": at_or_below,
    "2^-52 in place of the field": not_read,
    "the nugget below the field": nugget_below,
    "distances counted from the field": counted_from_it,
    "squares compared": by_squares,
    "the field cut off at the range": cut_at_range,
}


def by_evaluate(other):
    return lambda module, call: [patch.object(Variogram, "evaluate", other)]


def own(call):
    return call._replace(variogram=call.variogram._replace(same_spot=SAME_SPOT))


def wells_alone(module, call):
    """The field read between wells, and not at nodes."""
    right = module.right_hand_side
    return [patch.object(module, "right_hand_side", lambda taken, q: right(own(taken), q))]


def nodes_alone(module, call):
    """The field read at nodes, and not between wells."""
    right = module.assembled
    return [patch.object(module, "assembled", lambda taken: right(own(taken)))]


def pivots_too(module, call):
    """The field in place of the least pivot."""
    return [patch.object(elimination, "SMALLEST_PIVOT", call.variogram.same_spot)]


class Rooted(float):
    """A distance that knows the sum of squares that it is the root of."""

    squared = math.nan


def rooted(a, b):
    h = Rooted(distance(a, b))
    h.squared = running_sum((x - y) * (x - y) for x, y in zip(a, b, strict=True))
    return h


def before_the_root(module, call):
    """The sum of squares compared with the field's square, before the root."""
    def evaluate(self, h):
        return 0.0 if h.squared < self.same_spot * self.same_spot else self.by_formula(float(h))

    return [patch.object(Variogram, "evaluate", evaluate), patch.object(module, "distance", rooted)]


BY_NAME = {
    **{name: by_evaluate(other) for name, other in EVALUATED.items() if other is not by_squares},
    "squares compared before the root": before_the_root,
    "the field between wells alone": wells_alone,
    "the field at nodes alone": nodes_alone,
    "the field as the least pivot": pivots_too,
}


def joined(survey, i, j):
    """Two wells at one spot as one well: r between them."""
    h = distance(survey.well(i), survey.well(j))
    return 0.0 + survey.r if h < survey.variogram.same_spot else survey.variogram.evaluate(h)


OF_A_FIT = {
    **BY_NAME,
    "r between wells at one spot": lambda module, call: [patch.object(fit, "between_wells", joined)],
}


def outcomes(sentences, module, outcome_of, call):
    """What a call would end with by each sentence."""
    for name, sentence in sentences.items():
        with ExitStack() as changed:
            for other in sentence(module, call):
                changed.enter_context(other)
            outcome = outcome_of(call)
        yield name, outcome
