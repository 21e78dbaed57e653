"""Lists as a caller has them: sequences of numbers or of rows of numbers, or what has `tolist`, as numpy's arrays do.

What is none is turned away here, by a sentence that says where it stands: a TypeError for what is no number, such as text, bytes and names, and a
ValueError for a list of another shape. Nothing is flattened but rows of the width that is asked for.
"""


def is_text(x):
    """Whether something is text, or bytes, which would be numbers to a call that only counts them through."""
    return isinstance(x, (str, bytes, bytearray)) or isinstance(x, memoryview) and x.itemsize == 1


def plain(x):
    """Python's own lists and numbers, of an array or of a number that is kept in one."""
    return x.tolist() if hasattr(x, "tolist") and not is_text(x) else x


def items(xs, what):
    """What a list holds, in its order."""
    xs = plain(xs)
    if is_text(xs):
        raise TypeError(f"{what} is {xs!r:.40}, which is text or bytes; give a list of numbers")
    if hasattr(xs, "keys") or isinstance(xs, (set, frozenset)):
        raise TypeError(f"{what} is a {type(xs).__name__}, which holds names or has no order; give its numbers as a list or as rows")
    if not hasattr(xs, "__iter__"):
        raise TypeError(f"{what} is {xs!r:.40}, and no list; give a list of numbers")
    return [plain(x) for x in xs]


def number(x, what):
    """A number as an f64."""
    x = plain(x)
    if is_text(x):
        raise TypeError(f"{what} is {x!r:.40}, which is text or bytes; give numbers, such as float('12.5')")
    if hasattr(x, "__len__"):
        raise ValueError(f"{what} is {x!r:.40}, a list where a number has to stand")
    try:
        return float(x)
    except TypeError:
        raise TypeError(f"{what} is {x!r:.40}, and no number") from None
    except OverflowError:
        raise ValueError(f"{what} is too large for a number of 64 bits") from None


def width_of(rows, what):
    """How long the rows are: None for a list without rows."""
    widths = {len(row) if hasattr(row, "__len__") and not is_text(row) else None for row in rows}
    if len(widths) > 1:
        raise ValueError(f"{what} has rows of different lengths" + (", or numbers beside rows" if None in widths else ""))
    return widths.pop() if widths else None


def table(xs, what):
    """The numbers one after another, and how long the rows are: None for a list without rows."""
    rows = items(xs, what)
    width = width_of(rows, what)
    if width is None:
        return [number(x, f"{what}[{i}]") for i, x in enumerate(rows)], None
    return [number(x, f"{what}[{i}][{j}]") for i, row in enumerate(rows) for j, x in enumerate(items(row, f"{what}[{i}]"))], width


def flat(xs, width, what):
    """The numbers one after another; rows, if there are any, have to be so wide. A list of single numbers may come as a column: as rows of one."""
    numbers, found = table(xs, what)
    if found not in (None, width):
        raise ValueError(f"{what} has rows of {found}, and not of {width}")
    return numbers
