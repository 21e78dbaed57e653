"""Lists as drillers send them, wrong ones and good ones, made from one list of 30 wells; each with what has to become of it.

REFUSED: status 1, these words, and no file. DOUBTED: a map with these words among the doubts of the last lines, its table and its page. GOOD: a map
without a doubt, whose levels are those of the plain list to a centimetre, with these words told. NOTED: the same, of fewer wells.
"""
import random
from typing import NamedTuple, Tuple

EAST, NORTH = 4512300.0, 5403200.0
REFUSED, DOUBTED, GOOD, NOTED = 'refused', 'doubted', 'good', 'noted'


class Case(NamedTuple):
    """A list, the options beside it, and what has to become of it."""
    text: str
    outcome: str
    words: Tuple[str, ...]
    options: Tuple[str, ...] = ()


def wells():
    """30 wells on a plain of three kilometres that falls to the south-east: name, x, y, level."""
    draw, found = random.Random('wrong lists'), []
    while len(found) < 30:
        x, y = round(draw.uniform(0, 3000), 1), round(draw.uniform(0, 3000), 1)
        if all((x - a) ** 2 + (y - b) ** 2 > 300 ** 2 for _, a, b, _ in found):
            found.append((f'BH-{len(found) + 1:02}', x, y, round(148 - 0.0012 * x + 0.0009 * y + draw.gauss(0, 0.05), 2)))
    return [(name, EAST + x, NORTH + y, level) for name, x, y, level in found]


WELLS = wells()
HEADER = 'name,x,y,level'


def line(well):
    name, x, y, level = well
    return f'{name},{x:.1f},{y:.1f},{level if isinstance(level, str) else format(level, ".2f")}'


def listed(rows=WELLS, header=HEADER):
    return '\n'.join([header, *(each if isinstance(each, str) else line(each) for each in rows)]) + '\n'


def changed(number, **new):
    """The list with one well changed: the one on line `number` + 1."""
    rows = [dict(zip(('name', 'x', 'y', 'level'), well)) for well in WELLS]
    rows[number - 1].update(new)
    return listed([tuple(row.values()) for row in rows])


def added(*rows):
    return listed([*WELLS, *rows])


def turned(make, header=HEADER, separator=','):
    """The list with every well turned into other fields."""
    return '\n'.join([header, *(separator.join(make(*well)) for well in WELLS)]) + '\n'


def spaced(value, mark):
    """A coordinate with marks between its thousands: 4'512'300.5."""
    return f'{value:,.1f}'.replace(',', mark)


def comma(value, places=2):
    return f'{value:.{places}f}'.replace('.', ',')


def pointed(value):
    """4.512.300,5"""
    return spaced(value, '.')[:-2] + comma(value, 1)[-2:]


def degrees(name, x, y, level):
    """A well in degrees, somewhere in the south of Germany."""
    return name, f'{9 + (x - EAST) / 73000:.5f}', f'{48.7 + (y - NORTH) / 111000:.5f}', f'{level}'


def other_way_round(name, x, y, level):
    return name, y, x, level


STEEP = ('a water table hardly falls more than 5 %',)
LEVELS = {
    'no data as -9999': Case(changed(9, level='-9999'), REFUSED, ('BH-09 (line 10)', '-9999', '--anyway')),
    'no data as -999': Case(changed(9, level='-999'), REFUSED, ('BH-09 (line 10)', '-999')),
    'no data as -999.9': Case(changed(9, level='-999.9'), REFUSED, ('BH-09 (line 10)', '-999.9')),
    'no data as 9999': Case(changed(9, level='9999'), REFUSED, ('BH-09 (line 10)', '9999')),
    'no data as 1e30': Case(changed(9, level='1e30'), REFUSED, ('line 10', '1e30')),
    'no data, drawn all the same': Case(changed(9, level='-9999'), DOUBTED, ('BH-09 (line 10)', '−9999'), ('--anyway',)),
    'no data, left out': Case(changed(9, level='-9999'), NOTED, ('line 10', 'BH-09'), ('--skip-unreadable',)),
    'dry': Case(changed(9, level='dry'), REFUSED, ('line 10', 'dry', '--skip-unreadable')),
    'n/a': Case(changed(9, level='n/a'), REFUSED, ('line 10', 'n/a', '--skip-unreadable')),
    'dry, left out': Case(changed(9, level='dry'), NOTED, ('line 10', 'BH-09', 'dry'), ('--skip-unreadable',)),
    'empty': Case(changed(9, level=''), REFUSED, ('line 10', 'level is missing', '--skip-unreadable')),
    'decimal point left out': Case(changed(9, level=WELLS[8][3] * 100), DOUBTED, ('BH-09 (line 10)',)),
    'first digit left out': Case(changed(9, level=WELLS[8][3] - 100), DOUBTED, ('look at BH-09 (line 10) first',)),
    'digits exchanged': Case(changed(9, level=WELLS[8][3] + 9), DOUBTED, ('look at BH-09 (line 10) first',)),
    'one in feet': Case(changed(9, level=WELLS[8][3] / 0.3048), DOUBTED, ('look at BH-09 (line 10) first',)),
    'zero for no reading': Case(changed(9, level='0'), DOUBTED, ('look at BH-09 (line 10) first',)),
    'a hundred times as steep': Case(turned(lambda n, x, y, z: (n, f'{x}', f'{y}', f'{(z - 146) * 100:.2f}')), DOUBTED, STEEP),
}

PLACES = {
    'degrees': Case(turned(degrees), REFUSED, ('degrees', '--anyway')),
    'degrees, the other way round': Case(turned(lambda *well: other_way_round(*degrees(*well))), REFUSED, ('degrees',)),
    'degrees, drawn all the same': Case(turned(degrees), DOUBTED, ('degrees',), ('--anyway',)),
    'a digit too few': Case(changed(9, x=451230.0), DOUBTED, ('BH-09 (line 10)', 'km')),
    '4,000 km away': Case(changed(9, x=EAST - 4000000), DOUBTED, ('BH-09 (line 10)', 'km')),
    'x and y exchanged in a line': Case(changed(9, x=WELLS[8][2], y=WELLS[8][1]), DOUBTED, ('BH-09 (line 10)', 'x and y look exchanged')),
    'kilometres without a word': Case(turned(lambda n, x, y, z: (n, f'{x / 1000:.4f}', f'{y / 1000:.4f}', f'{z}')), DOUBTED, STEEP),
    'on one line': Case(turned(lambda n, x, y, z: (n, f'{x:.1f}', f'{NORTH + (x - EAST) / 2:.1f}', f'{148 - 0.001 * (x - EAST):.3f}')), DOUBTED,
                        ('stand on one line',)),
    'a line twice': Case(added(line(WELLS[0])), DOUBTED, ('line 32 repeats line 2', 'take one out')),
    'two wells at a spot': Case(added(('BH-99', *WELLS[0][1:3], WELLS[0][3] + 0.1)), DOUBTED, ('BH-01 (line 2)', 'BH-99 (line 32)')),
    'a name twice': Case(changed(9, name='BH-05'), DOUBTED, ('BH-05', 'lines 6 and 10')),
    'place missing': Case(changed(9, x=WELLS[8][1]).replace(f'{WELLS[8][1]:.1f}', '', 1), REFUSED, ('line 10', 'x is missing')),
}

HEADERS = {
    'below ground': Case(listed(header='name,x,y,Level (m below ground)'), REFUSED, ('below ground', 'level = ground', '--anyway')),
    'below ground, drawn all the same': Case(listed(header='name,x,y,Level (m below ground)'), DOUBTED, ('below ground',), ('--anyway',)),
    'depth': Case(listed(header='name,x,y,depth'), REFUSED, ('depth', 'level = ground')),
    'depth to water': Case(listed(header='name,x,y,Depth to water [m]'), REFUSED, ('Depth to water', 'level = ground')),
    'Flurabstand': Case(listed(header='Brunnen,Rechtswert,Hochwert,Flurabstand [m]'), REFUSED, ('Flurabstand', 'level = ground')),
    'depth with the ground': Case(turned(lambda n, x, y, z: (n, f'{x}', f'{y}', f'{200 - z:.2f}', '200'), HEADER.replace('level', 'depth,ground')),
                                  GOOD, ('level = ground - depth',)),
    'water above the ground': Case(turned(lambda n, x, y, z: (n, f'{x}', f'{y}', f'{z}', f'{z - 5:.2f}'), HEADER + ',ground'), DOUBTED, ('above ground',)),
    'psi': Case(listed(header='name,x,y,level [psi]'), REFUSED, ('psi', 'metres')),
    'degrees in brackets': Case(listed(header='name,x (deg),y (deg),level'), REFUSED, ('deg',)),
    'feet': Case(turned(lambda n, x, y, z: (n, f'{x}', f'{y}', f'{z / 0.3048:.4f}'), 'name,x [m],y [m],level [ft]'), GOOD, ('0.3048',)),
    'feet beside no unit': Case(turned(lambda n, x, y, z: (n, f'{x}', f'{y}', f'{z / 0.3048:.4f}'), 'name,x,y,level [ft]'), DOUBTED, ('feet', 'x and y')),
    'kilometres': Case(turned(lambda n, x, y, z: (n, f'{x / 1000:.4f}', f'{y / 1000:.4f}', f'{z}'), 'name,x [km],y [km],level'), GOOD, ('km',)),
    'centimetres': Case(turned(lambda n, x, y, z: (n, f'{x}', f'{y}', f'{z * 100:.0f}'), 'name,x,y,level (cm)'), GOOD, ('cm',)),
    'level beside head': Case(turned(lambda n, x, y, z: (n, f'{x}', f'{y}', f'{z}', f'{z - 3:.2f}'), HEADER + ',head'), DOUBTED, ('level', 'head', '--level')),
    'only an elevation': Case(listed(header='name,x,y,Elevation'), DOUBTED, ('Elevation is taken as the water level',)),
    'numbers alone': Case(listed()[len(HEADER) + 1:], REFUSED, ('has to name the columns',)),
    'one field': Case(listed().replace(',', ' '), REFUSED, ('comma', 'semicolon', 'tab')),
    'latitude': Case(listed(header='name,lon,lat,level'), REFUSED, ('degrees',)),
    'another word for the level': Case(listed(header='name,x,y,spiegel'), REFUSED, ('no column for level', '--level')),
    'another word, named': Case(listed(header='name,x,y,spiegel'), GOOD, (), ('--level', 'spiegel')),
}

WAYS = {
    'decimal commas': Case(turned(lambda n, x, y, z: (n, comma(x, 1), comma(y, 1), comma(z)), HEADER.replace(',', ';'), ';'), GOOD, ()),
    'decimal commas and tabs': Case(turned(lambda n, x, y, z: (n, comma(x, 1), comma(y, 1), comma(z)), HEADER.replace(',', '\t'), '\t'), GOOD, ()),
    'decimal commas between commas': Case(turned(lambda n, x, y, z: (n, comma(x, 1), comma(y, 1), comma(z))), REFUSED, ('line 2', 'decimal comma')),
    'thousands by commas': Case(turned(lambda n, x, y, z: (n, f'"{spaced(x, ",")}"', f'"{spaced(y, ",")}"', f'{z}')), GOOD, ()),
    "thousands by '": Case(turned(lambda n, x, y, z: (n, spaced(x, "'"), spaced(y, "'"), f'{z}')), GOOD, ()),
    'thousands by spaces': Case(turned(lambda n, x, y, z: (n, spaced(x, '\u00a0'), spaced(y, '\u202f'), f'{z}')), GOOD, ()),
    'thousands by points': Case(turned(lambda n, x, y, z: (n, pointed(x), pointed(y), comma(z)), HEADER.replace(',', ';'), ';'), GOOD, ()),
    'one point of two': Case(turned(lambda n, x, y, z: (n, pointed(x).replace('.', '', 1), pointed(y), comma(z)), HEADER.replace(',', ';'), ';'),
                             REFUSED, ('line 2',)),
    'metres in the cells': Case(turned(lambda n, x, y, z: (n, f'{x} m', f'{y} m', f'{z} m')), GOOD, ()),
    'feet in the cells': Case(turned(lambda n, x, y, z: (n, f'{x}', f'{y}', f'{z / 0.3048:.2f} ft')), REFUSED, ('line 2', 'ft', 'header')),
    'ambiguous': Case('name;x;y;level\nA;4,512;5,403;1,200\nB;4,513;5,404;1,300\nC;4,514;5,403;1,400\nD;4,512;5,404;1,250\n', REFUSED,
                      ('4,514', '4514', '4.514')),
    'remarks before the header': Case('# Survey of May\n\n// by hand\n' + listed(), GOOD, ()),
    'a title before the header': Case('Survey of May 2024\n\n' + listed(), GOOD, ()),
    'German': Case(listed(header='Messstelle,Rechtswert,Hochwert,Grundwasserstand [m NHN]'), GOOD, ()),
    'French': Case(listed(header="piézomètre,x,y,niveau d'eau (m)"), GOOD, ()),
    'Spanish': Case(listed(header='sondeo,este,norte,nivel freático [m]'), GOOD, ()),
    'a survey office': Case(listed(header='ID,POINT_X,POINT_Y,HEAD_M'), GOOD, ()),
}


def dated(rows):
    return 'name,x,y,level,date\n' + ''.join(f'{line(well)},2024-03-01\n' for well in WELLS[1:]) + ''.join(f'{row}\n' for row in rows)


def readings(*tails):
    """Several readings of the first well: its name and place, with each tail after them."""
    return [','.join(line(WELLS[0]).split(',')[:3]) + ',' + tail for tail in tails]


READINGS = {
    'four readings': Case(listed([*WELLS[1:], *readings('147.1', '147.3', '147.2', '147.9')]), REFUSED, ('BH-01', 'lines 31, 32, 33 and 34', '--readings')),
    'four with dates': Case(dated(readings('140,2021-03-01', f'{WELLS[0][3]},2024-03-01', '141,2022-03-01', '142,2023-03-01')), GOOD, ('BH-01', 'newest')),
    'dates that may be either': Case(dated(readings('140,03/04/2021', '141,05/06/2022')).replace('2024-03-01', '01/02/2024'), REFUSED, ('2024-05-31',)),
    'the last of four': Case(listed([*WELLS[1:], *readings('140', '141', '142', f'{WELLS[0][3]}')]), GOOD, ('BH-01',), ('--readings', 'last')),
}

SETTINGS = {
    'tolerance': Case(listed(), DOUBTED, ('allow 0.01', '--tolerance'), ('--tolerance', '0.01')),
    'regularization': Case(listed(), DOUBTED, ('more than a hundredth of what the model rises to',),
                           ('--nugget', '0', '--sill', '1', '--range', '2000', '--regularization', '0.1')),
    'nugget': Case(listed(), DOUBTED, ('nugget, 2, is above the sill',), ('--nugget', '2', '--sill', '1', '--range', '2000')),
    'beyond the wells': Case(listed(), DOUBTED, ('below the lowest well',), ('--trend', 'linear', '--nodes', 'FAR')),
    'plain': Case(listed(), GOOD, ()),
    'linear trend': Case(listed(), GOOD, (), ('--trend', 'linear')),
}

ALL = {**LEVELS, **PLACES, **HEADERS, **WAYS, **READINGS, **SETTINGS}
