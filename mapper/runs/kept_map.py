"""What a folder of sheets keeps of its map, so that the folder is all that is carried: map.json, and nodes.csv where the nodes came as a list."""
import csv
import json
from array import array
from dataclasses import asdict
from pathlib import Path

from mapper.errors import Stop
from mapper.lists.grid import grid_nodes
from mapper.lists.nodes import unanswered
from mapper.numbers import shown
from mapper.output_files import quoted
from mapper.records import Bin, Doubt, Grid, LeftOut, Map, Source, Variogram, Well
from mapper.runs.sheets import Sheets
from mapper.runs.survey import Survey
from mapper.runs.survey_file import columns

KEPT, LIST = 'map.json', 'nodes.csv'
VERSION = 2


def kept(made, origin):
    """All that a map is made of but the answers."""
    survey = made.survey
    return {
        'version': VERSION, 'title': Path(made.options.wells).stem, 'wells': [asdict(well) for well in survey.wells],
        'trend': survey.trend, 'external': survey.external, 'regularization': survey.regularization, 'tolerance': survey.tolerance,
        'variogram': asdict(survey.variogram), 'bins': [asdict(each) for each in made.bins], 'grid': made.grid and asdict(made.grid),
        'nodes': len(made.nodes), 'origin': list(origin), 'notes': made.notes, 'doubts': [asdict(each) for each in made.doubts],
        'left_out': [asdict(each) for each in made.left_out], 'source': asdict(made.source),
    }


def listed(nodes, outside):
    """The nodes as a list that reads back the same, with their external numbers where there are any."""
    yield ','.join(header(nodes.names, outside)) + '\n'
    for i, (x, y) in enumerate(zip(nodes.x, nodes.y)):
        yield (quoted(nodes.names[i]) + ',' if nodes.names else '') + f'{shown(x)},{shown(y)}' + (f',{shown(outside[i])}' if outside else '') + '\n'


def header(names, outside):
    return ['name'] * bool(names) + ['x', 'y'] + ['external'] * bool(outside)


def read_listed(path, external):
    """The nodes of such a list, and their external numbers. The list is our own, and held to be: nothing is guessed in it, as it is in a driller's."""
    try:
        with open(path, encoding='utf-8', newline='') as lines:
            return listed_nodes(csv.reader(lines, strict=True), external)
    except OSError as error:
        raise Stop(f'{path} cannot be read: {error.strerror}. Write the sheets anew.')
    except (ValueError, StopIteration, csv.Error):
        raise Stop(f'{path} is not as --sheets writes it. Write the sheets anew.')


def listed_nodes(rows, external):
    first = next(rows)
    named = first[:1] == ['name']
    if first != header(named, external):
        raise ValueError
    names, numbers = [], [array('d') for _ in first[named:]]
    for row in rows:
        if len(row) != len(first):
            raise ValueError
        names += row[:named]
        for column, cell in zip(numbers, row[named:]):
            column.append(float(cell))
    return unanswered(numbers[0], numbers[1], names or None), numbers[2] if external else array('d')


class KeptMap:
    """A map that is read back: all of it but the answers."""

    def __init__(self, folder):
        self.folder = Path(folder)
        try:
            self.read(json.loads((self.folder / KEPT).read_text(encoding='utf-8')))
        except OSError:
            raise Stop(f'{folder} has no {KEPT}. It has to be a folder that --sheets wrote.')
        except (ValueError, KeyError, TypeError):
            raise Stop(f'{self.folder / KEPT} is not as --sheets writes it. Write the sheets anew.')
        self.nodes, self.outside = (grid_nodes(self.grid), array('d')) if self.grid else read_listed(self.folder / LIST, self.survey.external)
        if len(self.nodes) != self.count:
            raise Stop(f'{self.folder / LIST} has {len(self.nodes)} nodes, and {KEPT} says {self.count}. Write the sheets anew.')

    def read(self, k):
        if k['version'] != VERSION:
            raise ValueError
        variogram, wells = Variogram(**k['variogram']), [Well(**well) for well in k['wells']]
        self.survey = Survey(wells, k['trend'], k['external'], variogram, k['regularization'], k['tolerance'])
        self.title, self.notes, self.count = k['title'], k['notes'], k['nodes']
        self.grid = None if k['grid'] is None else Grid(**k['grid'])
        self.bins, self.origin = [Bin(**each) for each in k['bins']], tuple(k['origin'])
        self.doubts, self.left_out = [Doubt(**each) for each in k['doubts']], [LeftOut(**each) for each in k['left_out']]
        self.source = None if k['source'] is None else Source(**k['source'])

    def sheets(self):
        """The sheets as they were written, made anew."""
        return Sheets(self.survey, self.nodes, self.outside, self.origin)

    def map(self, run, notes):
        """The map, once its nodes have been filled in by a run."""
        survey = self.survey
        return Map(self.title, survey.wells, self.nodes, self.grid, survey.variogram, self.bins, survey.trend, survey.external, survey.regularization,
                   survey.tolerance, columns(survey.trend, survey.external), [run], 0, [*self.notes, *notes], [], self.doubts, self.left_out, self.source)
