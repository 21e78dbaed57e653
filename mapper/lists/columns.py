"""A list of wells or nodes: its header, its rows, and the numbers in them."""
from mapper.errors import Stop
from mapper.lists.header_row import SEPARATOR_WORDS, header_row
from mapper.lists.header_words import CALLED, DEGREES, plain
from mapper.lists.headers import Headers, Wrong, has
from mapper.lists.number_marks import LARGEST, NUMBER, Marks, Where, written
from mapper.lists.text_rows import bad_line, rows, text_of
from mapper.lists.units import NAMED, phrase

OPTION = '--skip-unreadable'


class Unreadable(Exception):
    """A field of a row that has no number: what is wrong, and what to do about it."""

    def __init__(self, what, advice):
        super().__init__(what)
        self.advice = advice


class List:
    """A list: where its columns are, and its rows. `needed` are the columns that it has to have, `chosen` those asked for by their headers."""

    def __init__(self, path, needed, chosen=None):
        self.path, self.source, self.needed, self.chosen, self.comments = path, text_of(path), needed, chosen or {}, []
        first = header_row(path, self.source, self.score, len(needed))
        if first is None:
            raise Stop(f'{path} is empty. Its first line has to name the columns: {", ".join(needed)}.')
        self.line, self.text, fields, self.separator = first
        self.first, self.header = self.line, [' '.join(field.split()) for field in fields]
        self.called = [plain(header) for header in self.header]
        self.headers = Headers(self.header, self.chosen)
        self.marks, self.units = Marks(), {}
        self.at = self.checked(self.roles)

    def score(self, fields):
        """How many of the needed columns a row names; a row of numbers names none unless it names all."""
        found = has(fields, self.needed, self.chosen)
        numbers = sum(1 for field in fields if NUMBER.fullmatch(field))
        return found if found == len(self.needed) or numbers < 2 else 0

    def bad(self, what):
        return bad_line(self.path, self.line, self.text, what)

    def checked(self, call, *arguments):
        """A call's answer; what is wrong with the header ends the run."""
        try:
            return call(*arguments)
        except Wrong as wrong:
            raise self.bad(str(wrong))

    def roles(self):
        """The places of the name, x and y."""
        self.headers.apart()
        x, y = self.headers.x_and_y()
        return {'name': self.headers.first('name'), 'x': x, 'y': y}

    def need(self, missing):
        """Ends the run where the header does not have these columns."""
        if missing:
            raise self.bad(self.without(missing))

    def without(self, missing):
        """What to say of a header that does not have these columns."""
        if len(self.header) == 1:
            return (f'the header is one field; {SEPARATOR_WORDS} was looked for between its columns, and none of them was found. '
                    'Save the list as CSV with one of these')
        if all(NUMBER.fullmatch(field) for field in self.header[1:]):
            return 'the first line has to name the columns, such as name, x, y, level; this one has numbers'
        if DEGREES & set(self.called) and set(missing) & {'x', 'y'}:
            return 'x and y have to be metres on a flat grid (UTM, for example), not degrees; have the places converted first'
        words = '; '.join(f'{role} (or {", ".join(CALLED[role][1:4])})' for role in missing)
        return f'the header has no column for {words}' + (f'; name it by --{missing[0]} COLUMN' if 'level' in self.needed else '')

    def further(self):
        """The places of the columns that are none of name, x, y and level."""
        taken = set(self.at.values())
        return [i for i, header in enumerate(self.header) if header and i not in taken]

    def column(self, header):
        """The place of a further column that was asked for by its header."""
        places = [i for i in self.further() if self.called[i] == plain(header)]
        if len(places) == 1:
            return places[0]
        if places:
            raise self.bad(f'two columns are called {header}; name one of them otherwise')
        others = ', '.join(self.header[i] for i in self.further()) or 'none'
        raise Stop(f'{self.path} has no column {header} for --external. Its further columns: {others}.')

    def __iter__(self):
        """Goes to each row, and gives its fields: as many as the header has."""
        wide = len(self.header)
        self.comments = []
        for self.line, self.text, fields in rows(self.path, self.source, self.separator, self.comments):
            if self.line <= self.first:
                continue
            if any(fields[wide:]):
                raise self.bad(f'{len(fields)} fields, where the header has {wide}; a decimal comma or a comma in a name without quotes would do this')
            yield (fields + [''] * wide)[:wide]

    def measure(self, place, unit):
        """Has a column read in a unit, which its header says."""
        self.units[place] = unit

    def settle_marks(self):
        """Decides what commas and points mean in the columns that have units; ends the run where that cannot be told."""
        for fields in self:
            for place in self.units:
                cell = fields[place]
                if not self.marks.plainly(cell):
                    self.marks.look(cell, Where(self.line, self.text, self.header[place], cell))
        where, what = self.marks.fault(self.separator)
        if where is not None:
            raise bad_line(self.path, where.line, where.text, what)

    def read(self, cell, place):
        """The number in a field as it stands there; Unreadable where there is none."""
        plainly = NUMBER.fullmatch(cell) and (self.marks.decimal == '.' or '.' not in cell)
        value = float(cell) if plainly else self.otherwise(cell, self.header[place], self.units.get(place))
        if abs(value) > LARGEST:
            raise Unreadable(f'{self.header[place]} is too large: {cell}', 'places and levels are in metres, and such a number stands for a missing one')
        return value

    def metres(self, value, place):
        """A column's number in metres."""
        factor = self.units[place].factor if place in self.units else 1.0
        return value if factor == 1 else round(value * factor, 9)

    def otherwise(self, cell, header, unit):
        """The number in a field that is not written plainly."""
        if not cell:
            raise Unreadable(f'{header} is missing', 'fill it in, or take the line out')
        found = written(cell)
        value = None if found is None else found.value(self.marks.decimal)
        said = None if value is None else phrase(found.unit)
        if value is None or (found.unit and (said.name is None or said.below)):
            raise Unreadable(f'{header} is not a number: {cell}', 'give one, or take the line out')
        stands = unit.name if unit and unit.name else None
        if found.unit and said.name != (stands or 'm'):
            has = f'the header says {NAMED[stands]}' if stands else 'its header says no unit'
            raise Unreadable(f'{header} is in {NAMED[said.name]} here, {cell}, and {has}', f'convert it, or say the unit in the header, such as [{said.name}]')
        return value

    def number(self, fields, place):
        """The number in a row's field, in metres; a bad one ends the run with its line."""
        try:
            return self.metres(self.read(fields[place], place), place)
        except Unreadable as bad:
            raise self.bad(f'{bad}; {bad.advice}')
