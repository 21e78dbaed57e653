"""Areas to lend: longer than asked for, filled with a mark, so that what is not written can be seen."""
MARK = 7.25


def area(length, past=0):
    return [MARK] * (length + past)


def untouched(area_after, length):
    """All past the length is as it was."""
    return all(x == MARK for x in area_after[length:])


def fit_lengths(survey):
    """Figures, variances, verdicts, weights, multipliers, trend, work."""
    n, m, p, s = survey.n, survey.m, survey.p, survey.s
    return [m, m, m, n * m, p, p, 2 * s * s]


def query_lengths(query):
    """Figures, variances, work."""
    return [query.m, query.m, 2 * query.s * query.s]
