"""What is said of the units of a list's columns: what was converted, and what is not known."""
from mapper.lists.units import FACTORS, NAMED
from mapper.numbers import counted
from mapper.records import Doubt

DEGREES = {'°', 'deg', 'degree', 'degrees', 'dd', 'decimal degrees', 'grad', 'dms', 'degrés', 'grados'}


def listed(words):
    """'a', 'a and b', 'a, b and c'."""
    return ' and '.join([', '.join(words[:-1]), words[-1]]) if len(words) > 1 else words[0]


def conversions(columns):
    """A sentence for each unit that was converted. `columns` are pairs: a header, and what it says."""
    said = []
    for name in FACTORS:
        headers = list(dict.fromkeys(header for header, unit in columns if unit.name == name))
        if name != 'm' and headers:
            are = 'is' if len(headers) == 1 else 'are'
            said.append(f'{counted(len(headers), "column")} in {NAMED[name]} {are} converted to metres, 1 {name} = {FACTORS[name]:g} m: {listed(headers)}.')
    return said


def unknown_units(columns):
    """A grave doubt for each unit that is not known here."""
    units = dict.fromkeys(unit.unknown for _, unit in columns if unit.unknown is not None)
    return [Doubt(unknown_unit([header for header, unit in columns if unit.unknown == words], words), True) for words in units]


def unknown_unit(headers, words):
    """What to say of a unit that some headers have."""
    many = len(headers) > 1
    which = f'The column{"s" if many else ""} {listed(headers)}'
    if words.lower() in DEGREES:
        return (f'{which} {"are" if many else "is"} in degrees, and x and y have to be metres on a flat grid. Have the places converted, to UTM for example; '
                'as they stand the numbers are taken as metres.')
    return (f'{which} {"have" if many else "has"} a unit that is not known here: {words}. Convert the numbers to metres and write [m] in the header; '
            'as they stand they are taken as metres.')
