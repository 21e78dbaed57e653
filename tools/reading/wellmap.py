"""Paper 01, "Program `wellmap` reads one from standard input", and the lines that paper 02 adds: what it prints."""
from tools.patterns import bits, word
from tools.reading.fit import Areas, fit
from tools.reading.refusals import MOST_COLUMNS, MOST_NODES, MOST_WELLS_OF_PROGRAM as MOST_WELLS
from tools.reading.survey_file import malformed, parsed

SIZE = MOST_WELLS + MOST_COLUMNS


def own_areas():
    """Areas that serve every survey that is not refused before."""
    nodes, columns = [0.0] * MOST_NODES, [0.0] * MOST_COLUMNS
    weights, work = [0.0] * (MOST_WELLS * MOST_NODES), [0.0] * (2 * SIZE * SIZE)
    return Areas([*nodes], [*nodes], [0] * MOST_NODES, weights, [*columns], [*columns], work)


def shown(x):
    """"Bits are 16 hexadecimal digits in small letters, any NaN as 7ff8000000000000"."""
    return word(bits(x))


def column_lines(name, numbers):
    """A line a column."""
    return [f"{name} {shown(x)}" for x in numbers]


def lines(data):
    """"node count; node number from 1, figure bits, variance bits, verdict; one coef line a column"; "`trend` lines after the coef lines";
    "A refusal prints only `refused N`"; it "gives 9 above 48", in 9's own place."""
    if malformed(data):
        return ["refused 16"]
    survey, areas = parsed(data), own_areas()
    number = fit(survey, areas, MOST_WELLS)
    if number:
        return [f"refused {number}"]
    nodes = [f"{q + 1} {shown(areas.figures[q])} {shown(areas.variances[q])} {areas.verdicts[q]}" for q in range(survey.m)]
    p = survey.p
    return [f"nodes {survey.m}", *nodes, *column_lines("coef", areas.multipliers[:p]), *column_lines("trend", areas.trend[:p])]


def printed(data):
    return "".join(line + "\n" for line in lines(data)).encode()
