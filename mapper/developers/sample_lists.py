"""Makes the lists in samples/ anew: invented wells, in coordinates of seven figures.

Usage: python3 -m mapper.developers.sample_lists            writes samples/*.csv
       python3 -m mapper.developers.sample_lists --check    says of each whether it is the same; status 1 if one differs
"""
import math
import random
import sys
from pathlib import Path

SAMPLES = Path(__file__).resolve().parents[2] / 'samples'
EAST, NORTH = 4512300, 5403200


def apart(draw, count, wide, high, least):
    """Places in a field so wide and high, to the decimetre, none nearer to another than the least."""
    places = []
    while len(places) < count:
        place = round(draw.uniform(0, wide), 1), round(draw.uniform(0, high), 1)
        if all(math.dist(place, other) >= least for other in places):
            places.append(place)
    return places


def plain():
    """30 wells on a plain of 3 by 3 kilometres that falls to the south-east, with a swell across it."""
    draw = random.Random('plain.csv')
    yield 'name,x,y,level'
    for i, (x, y) in enumerate(apart(draw, 30, 3000, 3000, 300)):
        level = 48 - 0.0012 * x + 0.0009 * y + 0.5 * math.sin(x / 600) * math.cos(y / 900) + draw.gauss(0, 0.05)
        yield f'P{i + 1},{EAST + x:.1f},{NORTH + y:.1f},{level:.2f}'


def river(x):
    """The river's y in the valley, which it follows from west to east."""
    return 210 + 60 * math.sin(x / 130)


def ground(x, y):
    """The ground's height: it falls with the river, and rises to both sides of it."""
    return 207.5 - 0.003 * x + 0.00006 * (y - river(x)) ** 2 + 0.4 * math.sin(x / 70 + y / 110)


def valley():
    """24 wells beside a river, within 600 metres; the water follows the ground, less steeply."""
    draw = random.Random('valley.csv')
    yield 'name,x,y,level,ground'
    for i, (x, y) in enumerate(apart(draw, 24, 600, 420, 60)):
        level = 205.1 - 0.0025 * x + 0.4 * (ground(x, y) - 207.5 + 0.003 * x) + draw.gauss(0, 0.03)
        yield f'V{i + 1},{EAST + x:.1f},{NORTH + y:.1f},{level:.2f},{ground(x, y):.1f}'


def valley_nodes():
    """Places in the valley where boreholes are thought of, with the ground's height at each: every 40 metres."""
    yield 'name,x,y,ground'
    for row in range(11):
        for column in range(16):
            x, y = 40.0 * column, 40.0 * row + 10
            yield f'{chr(65 + row)}{column + 1},{EAST + x:.0f},{NORTH + y:.0f},{ground(x, y):.1f}'


def yard():
    """14 wells in and around a works yard, placed by a logger to the millimetre; three of them were read twice, and the second time placed a little off."""
    draw = random.Random('yard.csv')
    yield 'name,x,y,level'
    wells = [(f'Y{i + 1}', x + draw.uniform(0, 0.1), y + draw.uniform(0, 0.1)) for i, (x, y) in enumerate(apart(draw, 14, 400, 300, 45))]
    again = [(name, x + draw.uniform(-0.004, 0.004), y + draw.uniform(-0.004, 0.004)) for name, x, y in (wells[i] for i in (2, 6, 11))]
    for name, x, y in wells + again:
        level = 96.4 - 0.004 * x + 0.002 * y + 0.12 * math.sin(x / 90) + draw.gauss(0, 0.02)
        yield f'{name},{EAST + x:.3f},{NORTH + y:.3f},{level:.2f}'


def two_counties():
    """72 wells of two counties side by side, 36 of either, over 9 by 6 kilometres: their surveys joined. The water falls to the south-east, with a swell."""
    draw = random.Random('two_counties.csv')
    yield 'name,x,y,level'
    for county, west in (('W', 0), ('E', 4600)):
        for i, (x, y) in enumerate(apart(draw, 36, 4400, 6000, 500)):
            level = 138 - 0.0009 * (west + x) + 0.0006 * y + 0.6 * math.sin((west + x) / 1300) * math.cos(y / 1500) + draw.gauss(0, 0.06)
            yield f'{county}{i + 1},{EAST + west + x:.1f},{NORTH + y:.1f},{level:.2f}'


LISTS = {'plain.csv': plain, 'valley.csv': valley, 'valley_nodes.csv': valley_nodes, 'yard.csv': yard, 'two_counties.csv': two_counties}


def main(arguments):
    different = 0
    for name, lines in LISTS.items():
        path, text = SAMPLES / name, ''.join(line + '\n' for line in lines())
        same = path.exists() and path.read_text() == text
        different += not same
        if '--check' not in arguments:
            path.write_text(text)
        print(f'samples/{name}', 'same' if same else 'differs' if '--check' in arguments else 'written')
    return 1 if '--check' in arguments and different else 0


if __name__ == '__main__':
    sys.exit(main(sys.argv[1:]))
