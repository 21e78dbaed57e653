"""Where the levels of a list come from: a column of levels, or depths below the ground, which are none."""
from dataclasses import dataclass, field
from typing import List, Optional

from mapper.lists.header_words import CASING
from mapper.lists.headers import Wrong
from mapper.records import Doubt

OF_DEPTHS = 'level = ground - depth'


@dataclass
class LevelColumn:
    """The column that levels are read from, or worked out from."""
    place: int
    role: str = 'level'                              # as what its header was found: 'level', 'depth' or 'height'
    ground: Optional[int] = None                     # the place of the ground's height, if the list has it
    ground_role: str = 'ground'
    from_depth: bool = False                         # the level is the ground's height less the number
    rivals: List[int] = field(default_factory=list)  # other columns that could be the level
    doubts: List[Doubt] = field(default_factory=list)


def level_column(table):
    """The level's column of a list; None where it has none."""
    headers = table.headers
    if 'level' in headers.chosen and 'depth' in headers.chosen:
        raise Wrong('--level and --depth both say where the levels come from; leave one out')
    found = asked_for(headers) or called_level(headers) or called_depth(headers) or called_height(headers)
    if found is None:
        return None
    found.ground, found.ground_role = ground_column(headers, {found.place, *table.at.values()})
    judge_direction(found, headers)
    return found


def asked_for(headers):
    """The column that was asked for; one that is called a depth is one, whatever it was asked for as."""
    for role in ('level', 'depth'):
        place = headers.asked(role)
        if place is not None:
            return LevelColumn(place, 'depth' if 'depth' in headers.all[place].roles else role)
    return None


def downwards(headers, place, role):
    return headers.all[place].unit(role).below


def called_level(headers):
    """The first column of levels, and those that could be it as well."""
    places = headers.named('level', upwards=True)
    return LevelColumn(places[0], rivals=places[1:]) if places else None


def called_depth(headers):
    """A column of levels that are counted downwards, else one of depths."""
    for role in ('level', 'depth'):
        for place in headers.named(role):
            return LevelColumn(place, role)
    return None


def called_height(headers):
    """A height beside x and y and no other: it may be the water's or the ground's."""
    for place in headers.named('height'):
        text = headers.all[place].text
        return LevelColumn(place, 'height', doubts=[Doubt(
            f'The column {text} is taken as the water level, since the list has no other; it may be the height of the ground. '
            f'If it is the level, say so by --level {quoted(text)}; else name the column of the levels by --level.')])
    return None


def quoted(text):
    return f'"{text}"' if ' ' in text or '(' in text else text


def ground_column(headers, taken):
    """The place of the ground's height, none of those that are taken, and the role it was found by."""
    for role in ('ground', 'height'):
        place = headers.optional(role, taken)
        if place is not None:
            return place, role
    return None, 'ground'


def judge_direction(found, headers):
    """Whether the numbers are depths: then levels are worked out from the ground, or doubted."""
    header = headers.all[found.place]
    below = downwards(headers, found.place, found.role) or ('ground' if found.role == 'depth' else None)
    if below is None:
        return
    below = 'casing' if header.goes_by('depth', CASING) and below == 'ground' else below
    if below == 'sea':
        found.doubts.append(Doubt(f'The column {header.text} has metres below the sea, and levels count upwards: the map would be upside down. '
                                  'Turn the sign of each number, and write m above sea level in the header.', True))
    elif found.ground is not None and (below == 'ground' or 'ground' in headers.chosen):
        found.from_depth = True
    elif 'depth' in headers.chosen:
        raise Wrong(f"--depth needs the height of the ground, since {OF_DEPTHS}; add a column with it, or name it by --ground COLUMN")
    elif below == 'casing':
        found.doubts.append(Doubt(f'The column {header.text} has depths below the top of the casing, not levels: level = top of the casing - depth. '
                                  "Add a column with the casing's height and name it by --ground, or enter levels.", True))
    else:
        found.doubts.append(Doubt(f'The column {header.text} has depths below the ground, not levels: {OF_DEPTHS}. '
                                  "Add a column with the ground's height (ground, or name it by --ground), or enter levels.", True))
