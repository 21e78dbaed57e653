"""The audit's verdicts in words, and what to do about each (docs/REFERENCE.md, section 7): for the page and for the table."""

NOT_FINITE = 255


def verdict_words(verdict, columns):
    """What a verdict says; `columns` has the words of the audit's rows 1 to p."""
    if verdict == 0:
        return 'passes the audit'
    if verdict == NOT_FINITE:
        return 'no number came out: the figure means nothing'
    if verdict == len(columns) + 1:
        return 'the level is not the weighted sum of the wells within the tolerance'
    if verdict > len(columns):
        return 'not known'
    # Every trend has the constant as its first column; a further column that is headed 1 is none.
    missed = 'add up to one' if verdict == 1 else 'carry %s to the node' % columns[verdict - 1]
    return 'the weights do not %s within the tolerance' % missed


PLACE_COLUMNS = ('x', 'y', 'x²', 'xy', 'y²')


def verdict_advice(verdict, columns, moved=False):
    """What to do about a verdict, where the origin is moved to the wells or not; empty where there is nothing to do."""
    if verdict == 0:
        return ''
    if verdict == NOT_FINITE:
        return 'Look for a level, coordinate or external number that is far too large, and for a range of 0.'
    if verdict == len(columns) + 1:
        return 'Enter levels from a nearer datum (take a round height off them all), or accept a larger tolerance.'
    if verdict > len(columns):
        return 'Take the node as one that has not passed.'
    column = columns[verdict - 1]
    if column != '1' and column not in PLACE_COLUMNS:
        return 'Take a round number off the external column so that it lies near 0, or leave the column out.'
    # Lost digits of far coordinates show in the constant column, too, wherever the trend has columns of the place.
    if not moved and any(other in PLACE_COLUMNS for other in columns):
        return 'Count the coordinates from a round corner near the wells, or take a simpler trend; of wells at one spot keep one.'
    simpler = 'Take a simpler trend, or one' if len(columns) > 1 else 'Take one'
    return f'{simpler} well in place of several at one spot or close together; a larger --regularization may help, too.'
