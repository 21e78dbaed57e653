"""Several readings of one well: which of them is taken."""
from dataclasses import replace

from mapper.errors import Stop
from mapper.lists.dates import has_slashes, moment, orders
from mapper.naming import several
from mapper.numbers import counted

CHOICES = '--readings first, last or average'


def groups(wells):
    """The numbers of the wells that stand under one name at one place, a list for each that has several."""
    found = {}
    for i, well in enumerate(wells):
        found.setdefault((well.name, well.x, well.y), []).append(i)
    return [places for places in found.values() if len(places) > 1]


def lines(wells):
    """'lines 3, 7 and 9'."""
    numbers = [str(well.line) for well in wells]
    return f'lines {", ".join(numbers[:-1])} and {numbers[-1]}'


class Readings:
    """The wells of a list, each as often as it was read. `dates` are the fields of the date column, one for each well; None where there is no such column.
    Where neither they nor the choice tell which is taken the list is refused, unless `all_stay`."""

    def __init__(self, path, wells, dates, choice, all_stay=False):
        self.path, self.wells, self.dates, self.choice, self.all_stay = path, wells, dates, choice, all_stay
        self.groups = [group for group in groups(wells) if self.differ(group)]
        self.orders = orders(dates or ())
        self.days = []  # of the readings that were taken

    def differ(self, group):
        """Whether lines of one well are readings: of other levels, or of other days. Else one repeats the other."""
        return len({self.wells[i].level for i in group}) > 1 or (self.dates is not None and len({self.dates[i] for i in group}) > 1)

    def taken(self):
        """The wells, one for each that was read more than once, and a sentence about it, None where there is nothing to say."""
        if self.choice == 'newest' and self.dates is None:
            raise Stop(f'{self.path} has no column with the day of each reading for --readings newest. Name it by --date COLUMN, or say {CHOICES}.')
        undecided = self.choice is None and self.dates is None
        if not self.groups or undecided and self.all_stay:
            return self.wells, None
        if undecided:
            raise Stop(self.undated())
        choose = {'first': self.first, 'last': self.last, 'average': self.average}.get(self.choice, self.newest)
        instead = {i: choose(group) if i == group[0] else None for group in self.groups for i in group}
        kept = [well for well in (instead.get(i, well) for i, well in enumerate(self.wells)) if well is not None]
        return kept, self.sentence()

    def undated(self):
        """The refusal of readings without days."""
        mine = [self.wells[i] for i in self.groups[0]]
        others = len(self.groups) - 1
        more = f', and so do {counted(others, "other well")}' if others > 1 else ', and so does one other well' if others else ''
        return (f'{self.path}: {mine[0].name} stands in the list {counted(len(mine), "time")} at one place with other levels ({lines(mine)}){more}. '
                f'Choose by {CHOICES}; or add a column date, by which the newest is taken.')

    def first(self, group):
        return self.wells[group[0]]

    def last(self, group):
        return self.wells[group[-1]]

    def average(self, group):
        """The first reading with the average of all levels."""
        levels = [self.wells[i].level for i in group]
        return replace(self.wells[group[0]], level=round(sum(levels) / len(levels), 9))

    def newest(self, group):
        """The reading of the latest day; two of that day have to say the same."""
        moments = [self.moment(i) for i in group]
        latest = [i for i, each in zip(group, moments) if each == max(moments)]
        if len({self.wells[i].level for i in latest}) > 1:
            raise Stop(f'{self.path}: {self.wells[group[0]].name} has {counted(len(latest), "reading")} of {self.dates[latest[0]]}, its newest day '
                       f'({lines([self.wells[i] for i in latest])}). Take all but one out, or choose by {CHOICES}.')
        self.days.append(max(moments))
        return self.wells[latest[0]]

    def moment(self, i):
        """When a well was read; a field that does not tell ends the run."""
        text, line = self.dates[i], self.wells[i].line
        if has_slashes(text) and len(self.orders) != 1:
            why = 'the day or the month may stand first' if self.orders else 'some have the day first and some the month'
            raise Stop(f'{self.path}, line {line}: {text} is a day that can be read in two ways: in this column {why}. Write days as 2024-05-31.')
        found = moment(text, *self.orders if len(self.orders) == 1 else (None,))
        if found is None:
            raise Stop(f'{self.path}, line {line}: {text or "an empty field"} is no day that can be read, and {self.wells[i].name} has several readings. '
                       f'Write it as 2024-05-31; --skip-unreadable leaves such lines out, and {CHOICES} needs no days.')
        return found

    def unreadable(self):
        """The numbers of the wells whose days are needed and cannot be read."""
        if self.dates is None or self.choice not in (None, 'newest'):
            return []
        return [i for group in self.groups for i in group if not has_slashes(self.dates[i]) and moment(self.dates[i], None) is None]

    def sentence(self):
        """What was taken."""
        count = sum(len(group) for group in self.groups)
        which = {'first': 'the first', 'last': 'the last', 'average': 'the average level'}.get(self.choice, 'the newest')
        days = sorted({each.date().isoformat() for each in self.days})
        when = f' ({" to ".join([days[0], days[-1]][:len(days)])})' if days else ''
        return f'{self.named()} in the list with {counted(count, "reading")}; {which}{" of each" if len(self.groups) > 1 else ""} is taken{when}.'

    def named(self):
        """'BH-01 stands', '7 wells (A, B, C, D and 3 more) stand'."""
        names = [self.wells[group[0]].name for group in self.groups]
        if len(names) == 1:
            return f'{names[0]} stands'
        return f'{counted(len(names), "well")} ({several(names)}) stand'
