"""The files that a map leaves: written under another name first, so that there is nothing half written."""
import os
from pathlib import Path

from mapper.doubts.judgements import judgement_lines
from mapper.errors import Stop
from mapper.hull import where_of
from mapper.numbers import deviation, shown
from mapper.runs.verdicts import verdict_words

HEADER = 'node,x,y,level,variance,verdict,says,deviation,where'
HELD = 'the arithmetic held'


def write_all(files):
    """Writes each of (path, chunks of bytes), and gives them their names only when all are written."""
    written = []
    try:
        for path, chunks in files:
            other = Path(path).with_name(f'.{Path(path).name}.{os.getpid()}.part')
            written.append((other, path))
            with open(other, 'wb') as out:
                out.writelines(chunks)
        for other, path in written:
            os.replace(other, path)
    except OSError as error:
        raise Stop(f'{path} cannot be written: {error.strerror}. Name a folder that can be written to.')
    finally:
        for other, _ in written:
            if other.exists():
                other.unlink()


def quoted(text):
    """A field of a CSV file: in quotes where it holds a separator, a quote or a line's end."""
    return '"' + text.replace('"', '""') + '"' if any(c in text for c in ',;\t"\r\n') else text


def said(verdict, columns):
    """What the table says of a node."""
    return verdict_words(verdict, columns) + '; do not use the figure' if verdict else HELD


def figures(level, variance):
    """The level, its variance and its standard deviation, if it has one."""
    found = deviation(variance)
    return shown(level), shown(variance), '' if found is None else shown(found)


def by_words(m):
    """Which proved code the figures come from, where that is known."""
    return [f'Worked out by {m.source.by}.'] if m.source else []


def table(m):
    """The lines of the map's table: both judgements, and by what, as comments, then a line a node. A node that failed has no level: there is none to use."""
    for line in [*(f'# {line}' for line in judgement_lines(m) + by_words(m)), HEADER]:
        yield (line + '\n').encode()
    says = {number: quoted(said(number, m.columns)) for number in set(m.nodes.verdict)}
    nodes, where = m.nodes, where_of(m.wells)
    for i, (x, y, level, variance, number) in enumerate(zip(nodes.x, nodes.y, nodes.level, nodes.variance, nodes.verdict)):
        name = quoted(nodes.names[i]) if nodes.names else str(i + 1)
        height, square, root = figures(level, variance) if number == 0 else ('', '', '')
        yield f'{name},{shown(x)},{shown(y)},{height},{square},{number},{says[number]},{root},{where(x, y)}\n'.encode()
