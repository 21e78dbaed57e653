"""Numbers as they are shown."""
import math

ROUNDING = 1e-9  # square metres: a variance that is so little below zero is none


def shown(x):
    """The shortest text that reads back as the same number; a whole number without its point."""
    text = repr(x)
    return text[:-2] if text.endswith('.0') else text


def significant(x, figures):
    """A number rounded to so many significant figures."""
    return float(f'{x:.{figures - 1}e}')


def counted(count, one, many=None):
    """'1 node', '2 nodes'."""
    return f'{count:,} {one if count == 1 else many or one + "s"}'


def deviation(variance):
    """The standard deviation, the root of a variance; None where that is below zero by more than rounding, or not finite."""
    return math.sqrt(max(variance, 0.0)) if -ROUNDING <= variance < math.inf else None
