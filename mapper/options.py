"""What the command line says."""
import argparse
import os
import re
import sys

from mapper.lists.grid import MOST
from mapper.runs.survey import SAME_SPOT
from mapper.runs.survey_file import CODES, MODELS, PROGRAM_WELLS, WELLS

ROLES = {
    'name': "the wells' column with names, where its header is another word",
    'x': 'the column with eastings, in metres on a flat grid',
    'y': 'the column with northings',
    'level': 'the column with water levels, in metres above one datum',
    'depth': 'the column with depths to the water below the ground; needs a ground column',
    'ground': "the column with the ground's height at the wells",
    'date': 'the column with the day of each reading',
}
READINGS = ('newest', 'first', 'last', 'average')
BESIDE_COLLECT = ('collect', 'out', 'jobs', 'progress')
NOT_BESIDE_AT = ('nodes', 'grid', 'sheets', 'survey', 'out')
# What a survey file, which does not carry a same-spot distance, would have to say.
NOT_BESIDE_SAME_SPOT = {
    'survey': 'leave out --survey, or --same-spot',
    'listing': 'so the figures come from a call, which prints no lines: leave out --listing, or --same-spot',
    'sheets': 'leave out --sheets, and all sheets are run here, --jobs of them side by side; or leave out --same-spot',
}
USE = '''map wells.csv [options]
       map wells.csv --at X,Y[,GROUND] [options]
       map wells.csv --sheets DIR [options]
       map --collect DIR'''
ABOUT = '''Makes a water-table map, wells.html and wells.map.csv, from a list of wells: name, x, y, level and any further column, with a header, separated by
commas, semicolons or tabs. mapper/README.md has it all.'''


def size(text):
    """A grid's columns and rows."""
    found = re.fullmatch(r'([1-9][0-9]*)[xX×]([1-9][0-9]*)', text)
    if not found:
        raise argparse.ArgumentTypeError(f'{text} is no grid; say columns and rows, such as 40x30')
    columns, rows = int(found.group(1)), int(found.group(2))
    if columns * rows > MOST:
        raise argparse.ArgumentTypeError(f'{text} has more than {MOST:,} nodes; make several maps')
    return columns, rows


def above(least, what):
    """A number above, or at least, another; past 1e30 its square's square would not be finite, and it means nothing in metres."""
    def number(text):
        try:
            value = float(text)
        except ValueError:
            value = float('nan')
        if not least <= value <= 1e30 or (what == 'above' and value == least):
            raise argparse.ArgumentTypeError(f'{text} is not a number {what} {least:g}{"; it is too large" if value > least else ""}')
        return value
    return number


def same_spot(text):
    """A distance in metres, no shorter than the proved call takes it."""
    try:
        value = float(text)
    except ValueError:
        value = float('nan')
    if not SAME_SPOT <= value < float('inf'):
        raise argparse.ArgumentTypeError(f'{text} is no distance; say how many metres, a number above 0, such as 0.01 for a centimetre')
    return value


def numbers(text, counts, example):
    """So many numbers with commas between them."""
    try:
        found = tuple(float(part) for part in text.split(','))
    except ValueError:
        found = ()
    if len(found) not in counts or not all(abs(each) <= 1e15 for each in found):
        raise argparse.ArgumentTypeError(f'{text} is no place; say {example}')
    return found


def place(text):
    return numbers(text, (2,), 'x and y with a comma between them, such as 4512345,5403210')


def spot(text):
    return numbers(text, (2, 3), 'x and y with a comma between them, such as 4512345,5403210, and after another comma the height of the ground, '
                   'where it is known')


def count(text):
    if not re.fullmatch('[1-9][0-9]{0,3}', text):
        raise argparse.ArgumentTypeError(f'{text} is not a number of processes; say 1 or more')
    return int(text)


def parser():
    found = argparse.ArgumentParser(prog='map', usage=USE, description=ABOUT, allow_abbrev=False)
    add = found.add_argument
    add('wells', nargs='?', metavar='wells.csv', help='the list of wells')
    for role in ROLES:
        add('--' + role, metavar='COLUMN', help=ROLES[role])
    add('--skip-unreadable', action='store_true', help='leaves out the lines that have no level, place or number that can be read, and lists them')
    add('--readings', choices=READINGS, help='which of several readings of one well is taken (the newest by a date column)')
    add('--near', type=place, metavar='X,Y', help=f'takes the {WELLS} wells nearest to a place, where the list has more; {PROGRAM_WELLS} with --sheets or '
        '--listing')
    add('--at', type=spot, action='append', metavar='X,Y[,GROUND]', help='answers at this place in the terminal and makes no map; may be given again')
    add('--anyway', action='store_true', help='draws what cannot be a water table all the same, with the doubt on the page')
    add('--nodes', metavar='nodes.csv', help='a list of nodes, in place of a grid over the wells')
    add('--grid', type=size, metavar='40x30', help='how many columns and rows the grid has')
    add('--trend', choices=list(CODES), default='constant', help='the trend of the water table (constant)')
    add('--external', metavar='COLUMN', help='a further column as trend, such as the ground height; needs --nodes with that column')
    add('--model', choices=list(MODELS), default='spherical', help='the variogram model (spherical)')
    add('--nugget', type=above(0, 'at or above'), help='the model at no distance; fitted where it is not given')
    add('--sill', type=above(0, 'above'), help='what the model rises to; fitted where it is not given')
    add('--range', type=above(0, 'above'), help='the distance at which it is there, or a third (exponential) or 1/√3 (gaussian) of where it nearly is; '
        'fitted where it is not given')
    add('--same-spot', type=same_spot, metavar='METRES', help='takes wells nearer to each other than that as one spot, such as one well read twice')
    add('--regularization', type=float, help='what is added on the diagonal (1e-10; where --same-spot joins wells, what tells them apart)')
    add('--tolerance', type=float, default=1e-9, help='what the audit allows (1e-9)')
    add('--origin', choices=('auto', 'as-entered', 'moved'), default='auto', help='where coordinates are counted from; auto moves the origin where nodes fail')
    add('--survey', metavar='FILE', help='keeps the survey file; over 100 nodes a file for each sheet, numbered before its ending')
    add('--listing', action='store_true', help="prints the program's own lines")
    add('--jobs', type=count, default=os.cpu_count() or 1, help='how many sheets run side by side (all cores)')
    add('--progress', action='store_true', help='shows the bar where standard error is no terminal, too')
    add('--out', metavar='DIR', help='the folder for the files, in place of that of the list')
    add('--sheets', metavar='DIR', help='writes the sheets as survey files and runs nothing: for GNU parallel or a cluster')
    add('--collect', metavar='DIR', help='makes the page from the listings of such sheets')
    return found


def with_places(arguments):
    """The words of the command, a place that begins with a minus joined to its option: it would be taken for an option itself."""
    words = []
    for word in arguments:
        if words and words[-1] in ('--at', '--near') and re.match(r'-[0-9.]', word):
            words[-1] += '=' + word
        else:
            words.append(word)
    return words


def named(names):
    return ', '.join('the list of wells' if name == 'wells' else '--' + name.replace('_', '-') for name in names)


def options(arguments=None):
    """The options; a wrong use ends with status 2 and a sentence."""
    use = parser()
    found = use.parse_args(with_places(sys.argv[1:] if arguments is None else arguments))
    wrong = wrong_use(found, [name for name, value in vars(found).items() if value != use.get_default(name)])
    if wrong:
        use.error(wrong)
    return found


def wrong_use(found, given):
    """What is wrong with options beside each other; None where nothing is."""
    if found.collect is not None:
        others = [name for name in given if name not in BESIDE_COLLECT]
        return f'--collect DIR takes all of the map from DIR; leave out {named(others)}' if others else None
    if found.wells is None:
        return 'name the list of wells, such as samples/valley.csv'
    filed = next((name for name in NOT_BESIDE_SAME_SPOT if name in given and found.same_spot is not None), None)
    if filed:
        return f'--{filed} needs survey files, which do not carry the same-spot distance; {NOT_BESIDE_SAME_SPOT[filed]}'
    if found.at:
        return wrong_places(found, [name for name in given if name in NOT_BESIDE_AT])
    if found.nodes is not None and found.grid is not None:
        return '--nodes and --grid both say where the nodes are; leave one out'
    if found.sheets is not None and (found.survey is not None or found.listing or found.out is not None):
        return '--sheets DIR keeps every survey file and runs none; leave out --survey, --listing and --out'
    return None


def wrong_places(found, others):
    """What is wrong with the options beside --at."""
    if others:
        return f'--at X,Y answers at that place and makes no map; leave out {named(others)}'
    if found.external is not None and any(len(each) < 3 for each in found.at):
        return f'--external {found.external} has to be known at the place, too: --at X,Y,VALUE'
    return None
