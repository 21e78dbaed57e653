"""A list from a spreadsheet as rows of text: its encoding, its separator, its quotes, and where each row stands."""
import codecs
import csv
import io
import re
from pathlib import Path

from mapper.errors import Stop

SEPARATORS = '\t;,'
SHOWN = 200  # characters of a bad line
WORKBOOKS = b'PK\x03\x04', b'\xd0\xcf\x11\xe0'  # how .xlsx, .ods and .xls begin
COMMENT = re.compile(r'\s*(#(?!(N/A|DIV/0!|REF!|VALUE!|NAME\?|NUM!|NULL!))|//)')  # but not what spreadsheets write where a formula failed


def text_of(path):
    """The file's text. A byte-order mark tells the encoding; without one it is UTF-8, else what spreadsheets write on Windows."""
    try:
        data = Path(path).read_bytes()
    except OSError as error:
        raise Stop(f'{path} cannot be read: {error.strerror}.')
    if data.startswith(WORKBOOKS):
        raise Stop(f'{path} is a workbook and not a list. Save its sheet as CSV in the spreadsheet, and take that file.')
    if data.startswith((codecs.BOM_UTF16_LE, codecs.BOM_UTF16_BE)):
        return data.decode('utf-16', 'replace')
    try:
        return data.decode('utf-8-sig')
    except UnicodeDecodeError:
        return data.decode('cp1252', 'replace')


class Held:
    """The text's lines, each counted, and held until its row is whole: a quoted field may go over several. Comments are kept apart."""

    def __init__(self, text):
        self.source, self.number, self.held, self.comments = io.StringIO(text, newline=''), 0, [], []

    def __iter__(self):
        return self

    def __next__(self):
        line = next(self.source)
        self.number += 1
        while not self.held and COMMENT.match(line):
            self.comments.append((self.number, line))
            line = next(self.source)
            self.number += 1
        self.held.append(line)
        return line

    def taken(self):
        """The number of the first line held, and all of them as text."""
        first, text = self.number - len(self.held) + 1, ''.join(self.held).rstrip('\r\n')
        self.held.clear()
        return first, text


def bad_line(path, number, text, what):
    """The end of a run at a line: the file, the line's number, what is wrong, and the line itself."""
    shown = ''.join(c if c.isprintable() or c in '\t\n' else '?' for c in text[:SHOWN]) + (' …' if len(text) > SHOWN else '')
    return Stop(f'{path}, line {number}: {what}.\n    {shown}')


def rows(path, text, separator, comments=None):
    """Each row that is not blank: the number of its line, its text, and its fields without the spaces around them."""
    held = Held(text)
    held.comments = held.comments if comments is None else comments
    reader = csv.reader(held, delimiter=separator, strict=True, skipinitialspace=True)
    while True:
        try:
            fields = next(reader, None)
        except csv.Error as error:
            raise bad_line(path, *held.taken(), f'the line cannot be taken apart ({error}); look for a quotation mark without its other half')
        if fields is None:
            return
        number, line = held.taken()
        fields = [field.strip() for field in fields]
        if any(fields):
            yield number, line, fields
