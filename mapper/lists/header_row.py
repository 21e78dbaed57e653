"""Where a list begins: the row that names its columns, after titles and comments, and the separator between them."""
from itertools import islice

from mapper.errors import Stop
from mapper.lists.number_marks import written
from mapper.lists.text_rows import SEPARATORS, bad_line, rows

LOOKED_THROUGH = 30  # rows at most before and with the header
SEPARATOR_WORDS = 'a comma, a semicolon or a tab'


def filled(fields):
    return sum(1 for field in fields if field)


def like_a_well(line, fields, header):
    """Whether a row before the header is one of the list and no title: it has three numbers, or as many fields as the header and is no comment."""
    numbers = sum(1 for field in fields if written(field))
    return numbers >= 3 or (filled(fields) >= filled(header) and not line.startswith(';'))


def first_rows(path, text, separator):
    """The rows that a list may begin with; as far as they can be taken apart."""
    try:
        yield from islice(rows(path, text, separator), LOOKED_THROUGH)
    except Stop:
        return


def best_row(path, text, score, most):
    """The number of the row that has most of the columns, and its separator; None where no row has any. The first that has them all ends the search."""
    best = (0, 0, 0, None)
    for separator in SEPARATORS:
        for number, line, fields in first_rows(path, text, separator):
            found = score(fields)
            best = max(best, (found, -number, line.count(separator), separator), key=lambda each: each[:3]) if found else best
            if found == most:
                break
    return (-best[1], best[3]) if best[0] else None


def plain_row(path, text):
    """What stands for the header where no row has any of the columns: the first row of more than one field, else the first one."""
    first = None
    for number, line, _ in first_rows(path, text, '\x1f'):
        separator = max(reversed(SEPARATORS), key=line.count)
        first = first or (number, separator)
        if separator in line and not line.lstrip().startswith(';'):
            return number, separator
    return first


def header_row(path, text, score, most):
    """The header's line, text and fields, its separator, and the rows after it; None where the file has nothing in it. `score` says how many of the columns,
    `most` in all, a row has."""
    found = best_row(path, text, score, most) or plain_row(path, text)
    if found is None:
        first = next(rows(path, text, ','), None)  # raises where it cannot be taken apart
        return first and (*first, ',')
    at, separator = found
    before = []
    for number, line, fields in rows(path, text, separator):
        if number == at:
            lost = [row for row in before if like_a_well(*row[1:], fields)]
            if lost:
                raise bad_line(path, *lost[0][:2], f'the line stands before the header, which is line {at}, and may be a well; put it below, or take it out')
            return number, line, fields, separator
        before.append((number, line, fields))
    return None
