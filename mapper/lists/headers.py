"""The header of a list: which column is which, and what it says of the numbers below it."""
from mapper.lists.header_words import BRACKETS, CALLED, PLACES, bracketed, plain, words_of
from mapper.lists.units import DATUMS, SEA, phrase, together

MEASURED = ('x', 'y', 'level', 'depth', 'ground', 'height')  # roles whose headers may end in a unit, such as HEAD_M
OTHERWISE = {('x', 'y'): 'y', ('y', 'x'): 'x', ('level', 'ground'): 'ground', ('height', 'ground'): 'ground', ('height', 'level'): 'level'}


class Wrong(Exception):
    """What is wrong with a header, without the end of the sentence."""


class Header:
    """The text of one column's header. `roles` has what it may be: for each role how far down its name stands among those of CALLED."""

    def __init__(self, text):
        self.text, self.called = text, plain(text)
        self.words = words_of(BRACKETS.sub(' ', text))
        self.roles, self.tails = {}, {}
        for role in CALLED:
            self.find(role)
        self.explained = [role for text in bracketed(text) for role in ('x', 'y', 'level', 'ground') if plain(text) in CALLED[role]]
        for other in self.explained:  # "Y (Rechtswert)" is an easting, "Elevation (ground)" the ground's
            self.roles = {OTHERWISE.get((role, other), role): rank for role, rank in self.roles.items()}

    def find(self, role):
        """Whether the header is a name of a role, or one with a unit behind it."""
        if self.called in CALLED[role]:
            self.roles[role] = CALLED[role].index(self.called)
            return
        for end in range(len(self.words) - 1, 0, -1) if role in MEASURED else ():
            name, tail = '_'.join(self.words[:end]), self.words[end:]
            if name in CALLED[role] and self.tells(tail, role):
                self.roles[role], self.tails[role] = CALLED[role].index(name), ' '.join(tail)
                return

    @staticmethod
    def tells(tail, role):
        """Whether words behind a name are a unit or a datum; behind x and y the name of a grid will do."""
        said = phrase(' '.join(tail))
        if said.unknown is not None:
            return False
        return bool(said.name or said.below or (DATUMS | SEA) & set(tail)) or (role in ('x', 'y') and not all(word.isdigit() for word in tail))

    def unit(self, role=None):
        """What the header says of its numbers."""
        said = [text for text in bracketed(self.text) if text and not any(plain(text) in CALLED[each] for each in self.explained)]
        tail = self.tails.get(role) if role in self.roles else self.ending()
        return together(said + ([tail] if tail else []))

    def ending(self):
        """The longest end of a header of any name that is a unit, or says that its numbers are counted downwards."""
        for start in range(len(self.words)):
            tail = ' '.join(self.words[start:])
            said = phrase(tail)
            if said.unknown is None and (said.name or said.below) and (start > 0 or said.below):
                return tail
        return None

    def goes_by(self, role, names):
        """Whether the header was found as a role by one of these names."""
        return role in self.roles and CALLED[role][self.roles[role]] in names


class Headers:
    """All headers of a list. `chosen` has the headers that were asked for, by role."""

    def __init__(self, fields, chosen):
        self.all, self.chosen = [Header(text) for text in fields], chosen

    def apart(self):
        """Ends the run where one column was asked for twice."""
        places = {}
        for role in self.chosen:
            other = places.setdefault(self.asked(role), role)
            if other != role:
                raise Wrong(f'--{other} and --{role} name the same column, {self.chosen[role]}')

    def asked(self, role):
        """The place of the column that was asked for, None where none was."""
        if role not in self.chosen:
            return None
        wanted = self.chosen[role]
        for same in (lambda header: header.text.lower() == wanted.strip().lower(), lambda header: header.called == plain(wanted)):
            places = [i for i, header in enumerate(self.all) if header.text and same(header)]
            if len(places) == 1:
                return places[0]
            if places:
                raise Wrong(f'two columns are called {wanted}; name one of them otherwise')
        raise Wrong(f'there is no column {wanted} for --{role}. The columns are: {", ".join(header.text for header in self.all if header.text)}')

    def named(self, role, upwards=False):
        """The places of the columns that are called so, the first name first; `upwards` without those that are counted downwards."""
        found = sorted((header.roles[role], i) for i, header in enumerate(self.all) if role in header.roles and not (upwards and header.unit(role).below))
        for (rank, first), (other, second) in zip(found, found[1:]):
            if rank == other:
                raise Wrong(self.twice(role, self.all[first], self.all[second]))
        return [i for _, i in found]

    @staticmethod
    def twice(role, one, two):
        if one.text.lower() == two.text.lower() or role == 'height':
            return f'two columns are called {one.called}; name one of them otherwise'
        return f'two columns could be the {role}, {one.text} and {two.text}; choose one by --{role}'

    def first(self, role):
        """The place of a role's column, None where there is none."""
        asked = self.asked(role)
        return asked if asked is not None else next(iter(self.named(role)), None)

    def optional(self, role, but=()):
        """The place of a column that a list may have, and is none of others; one that is there twice is wrong only where it was asked for."""
        asked = self.asked(role)
        if asked is not None:
            return asked
        try:
            return next((place for place in self.named(role) if place not in but), None)
        except Wrong:
            return None

    def pairs(self):
        """The places of each x and y that go together, the first names first."""
        found = []
        for x, y in PLACES:
            both = [[i for i in self.named(role) if self.all[i].roles[role] == CALLED[role].index(name)] for role, name in (('x', x), ('y', y))]
            if all(both):
                found.append((both[0][0], both[1][0]))
        return found

    def x_and_y(self):
        """The places of x and y: as asked for, the other one too if it goes with that; else two that go together, else the first of each."""
        x, y = self.asked('x'), self.asked('y')
        pairs = [pair for pair in self.pairs() if x in (None, pair[0]) and y in (None, pair[1])]
        return pairs[0] if pairs else (self.first('x'), self.first('y'))


def has(fields, needed, chosen):
    """How many of the needed columns a row of headers has."""
    headers = Headers(fields, chosen)
    level = ('level', 'depth', 'height')
    return sum(any(named(headers, each) for each in (level if role == 'level' else (role,))) for role in needed)


def named(headers, role):
    """Whether a row has a column for a role, twice or once."""
    wanted = plain(headers.chosen[role]) if role in headers.chosen else None
    return any(role in header.roles or (wanted and header.called == wanted) for header in headers.all)
