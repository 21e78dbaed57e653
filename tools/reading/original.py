"""The original's answer to a survey, what it says of the lines that `wellmap` prints, and the trend by its inverse."""
from tools.generators.calls import Fit
from tools.generators.records import line, numbers
from tools.patterns import value
from tools.reading.fit import assembled, trend_of
from tools.reading.refusals import KINDS


def asked(survey):
    """The call of the oracle for a survey: it takes no tolerance."""
    return line(Fit(*survey[:6], tuple(survey.variogram), survey.r).words())


def told(lines):
    """What the original has to answer for these lines, one of them; none where it has no such refusal. It has no trend: those lines are left out."""
    if lines[0].startswith("refused "):
        return [f"error {kind}" for kind in KINDS.get(int(lines[0].split()[1]), ())]
    nodes = [text.split() for text in lines[1:] if not text.startswith(("coef ", "trend "))]
    multipliers = [text.split()[1] for text in lines if text.startswith("coef ")]
    parts = ["ok", str(len(nodes)), *(node[1] for node in nodes), *(node[2] for node in nodes), str(len(multipliers)), *multipliers]
    return [" ".join(parts)]


def agrees(lines, answer):
    """Whether the original's answer is one of these; where the scope added the refusal there is nothing to hold it to."""
    wanted = told(lines)
    return not wanted or answer in [*wanted, "shape"]


def asked_inverse(survey):
    """The call of the oracle for the inverse of a survey's matrix, by the elimination of the fit."""
    return line(["invert_uked", survey.s, *numbers(x for row in assembled(survey) for x in row)])


def trend_by_inverse(survey, answer):
    """The trend by the inverse that the original answers."""
    ok, size, *entries = answer.split()
    assert (ok, int(size)) == ("ok", survey.s), answer
    inverse = [value(int(entry, 16)) for entry in entries]
    return trend_of([inverse[at:at + survey.s] for at in range(0, len(inverse), survey.s)], survey.values, survey.p)
