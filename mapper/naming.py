"""What is named in a sentence: a well by its name and line, and a few of many."""

NAMED = 4  # of more the others are counted


def called(well):
    """A well by its name and the line that it stands in: 'BH-99 (line 32)'."""
    return f'{well.name} (line {well.line})' if well.line else well.name


def several(words, most=NAMED):
    """'A and B', 'A, B and C', and 'A, B, C, D and 7 more' where there are more than are named."""
    words = list(words)
    if len(words) > most:
        return f'{", ".join(words[:most])} and {len(words) - most:,} more'
    return ' and '.join(filter(None, (', '.join(words[:-1]), words[-1])))
