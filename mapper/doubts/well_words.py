"""Lengths, levels and places as a doubt tells them."""
from mapper.drawing.scales import MINUS
from mapper.numbers import shown, significant

FIGURES = 10    # of a coordinate: seven before the point, three after it
CENTIMETRE = 2  # figures after the point: nobody measures a water table closer


def length(metres):
    """A length to three figures, in kilometres from 1000 m up: '4,010 km', '850 m'."""
    value, unit = (metres / 1000, 'km') if significant(metres, 3) >= 1000 else (metres, 'm')
    return f'{significant(value, 3):,.12g} {unit}'


def listed(value):
    """A number as the list has it, with a minus that can be seen."""
    return shown(value).replace('-', MINUS)


def level(value):
    """A level that was worked out, to the centimetre."""
    return listed(round(value, CENTIMETRE) + 0.0)


def place(x, y):
    """A place, with no more figures than a coordinate to the millimetre has."""
    return f'({shown(significant(x, FIGURES))}, {shown(significant(y, FIGURES))})'


def percent(slope):
    """A slope in the hundred, to two figures."""
    return f'{significant(100 * slope, 2):,.12g} %'
