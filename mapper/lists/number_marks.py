"""Numbers as people write them: what the comma and the point mean, decided once for a whole list, and what parts thousands."""
import re
from typing import NamedTuple

LARGEST = 1e15  # far past any place or level, and small enough for squares of squares
NUMBER = re.compile(r'[+-]?([0-9]+\.?[0-9]*|\.[0-9]+)([eE][+-]?[0-9]+)?')
MARKS = str.maketrans({'\u00a0': ' ', '\u202f': ' ', '\u2009': ' ', '’': "'", '′': "'", '−': '-', '–': '-'})  # what is meant by marks of print
PARTS = re.compile(r"([+-]?)([0-9., ']*[0-9.,])([eE][+-]?[0-9]+)? *([^\W\d_].*|')?", re.DOTALL)
GROUPS = re.compile(r"[0-9]{1,3}([ '])[0-9]{3}(\1[0-9]{3})*([.,][0-9]*)?")
THOUSANDS = {mark: re.compile(r'[1-9][0-9]{0,2}(' + re.escape(mark) + r'[0-9]{3})+') for mark in '.,'}
OTHER = {'.': ',', ',': '.'}


class Written:
    """A field that looks like a number: its sign, digits with points and commas, exponent, and the unit behind it."""

    def __init__(self, sign, digits, exponent, unit, grouped):
        self.sign, self.digits, self.exponent, self.unit, self.grouped = sign, digits, exponent, unit, grouped

    def decimal(self):
        """The mark that has to be the decimal one; '' where there is none, and None where either could be."""
        marks = [mark for mark in '.,' if mark in self.digits]
        if not marks:
            return ''
        if len(marks) == 2:
            return max(marks, key=self.digits.rfind)
        mark = marks[0]
        if self.digits.count(mark) > 1:
            return OTHER[mark]
        sure = self.grouped or self.exponent or not THOUSANDS[mark].fullmatch(self.digits)
        return mark if sure else None

    def value(self, decimal):
        """The number, where `decimal` is the decimal mark; None where it is none then."""
        whole, mark, part = self.digits.partition(decimal)
        if not self.grouped and THOUSANDS[OTHER[decimal]].fullmatch(whole):
            whole = whole.replace(OTHER[decimal], '')
        if '.' in whole or '.' in part:
            return None
        text = self.sign + whole + ('.' if mark else '') + part + (self.exponent or '')
        return float(text) if NUMBER.fullmatch(text) else None


def written(cell):
    """A field taken apart; None where it does not look like a number."""
    found = PARTS.fullmatch(cell.translate(MARKS))
    if not found:
        return None
    sign, digits, exponent, unit = found.groups()
    grouped = bool(GROUPS.fullmatch(digits))
    if grouped:
        digits = re.sub("[ ']", '', digits)
    return Written(sign, digits, exponent, unit or '', grouped) if re.fullmatch('[0-9.,]*[0-9][0-9.,]*', digits) else None


class Where(NamedTuple):
    """A field of a list: its line, the line's text, the header of its column, and the field itself."""
    line: int
    text: str
    header: str
    cell: str


class Marks:
    """What the marks of a list mean, from the fields that leave no choice."""

    def __init__(self):
        self.seen = {'.': None, ',': None}  # where each was first seen to be the decimal mark
        self.unsure = {'.': {}, ',': {}}    # where each was seen to be either, for each column: the largest number

    def plainly(self, cell):
        """Whether a field is a number that tells nothing more about the marks: most fields of most lists are."""
        return bool(NUMBER.fullmatch(cell)) and ('.' not in cell or (self.seen['.'] is not None and self.seen[','] is None))

    def look(self, cell, where):
        """Takes a field into account."""
        found = written(cell)
        decimal = '' if found is None else found.decimal()
        if decimal is None:
            mark = '.' if '.' in found.digits else ','
            before = self.unsure[mark].get(where.header)
            if before is None or found.value(mark) > written(before.cell).value(mark):
                self.unsure[mark][where.header] = where
        elif decimal and found.value(decimal) is not None:
            self.seen[decimal] = self.seen[decimal] or where

    @property
    def decimal(self):
        return ',' if self.seen[','] else '.'

    @property
    def settled(self):
        return bool(self.seen['.'] or self.seen[','])

    def fault(self, separator):
        """Where the marks are wrong or cannot be told, and what is to be said of it; two times None where they are right."""
        point, comma = self.seen['.'], self.seen[',']
        if point and comma:
            return max(point, comma), (f'the list has a decimal comma in line {comma.line} ({comma.cell}) and a decimal point in line {point.line} '
                                       f'({point.cell}); write all numbers alike')
        if comma and separator == ',' and ',' in comma.cell:
            return comma, f'{comma.header} has a decimal comma, {comma.cell}; write it with a decimal point, {written(comma.cell).value(",")}'
        if self.unsure[','] and not self.settled:
            return self.ambiguous(next(iter(self.unsure[','].values())))
        return None, None

    @staticmethod
    def ambiguous(where):
        cell = where.cell
        few, many = (f'{written(cell).value(mark):.10g}' for mark in ',.')
        return where, (f'{where.header} is {cell}: {few} with a decimal comma, or {many} with a comma between thousands, and no other number of the list '
                       f'tells which. Write {cell.replace(",", ".")} or {cell.replace(",", "")}')
