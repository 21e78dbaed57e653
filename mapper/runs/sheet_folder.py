"""Large maps: the sheets as survey files in a folder, to be run elsewhere; runs/collecting.py makes the map of their listings."""
import json
import os
import shutil
from pathlib import Path

from mapper.errors import Stop
from mapper.numbers import counted
from mapper.progress import Bar
from mapper.runs.kept_map import KEPT, LIST, kept, listed
from mapper.runs.lost_digits import as_asked, named
from mapper.runs.origin import AS_ENTERED
from mapper.runs.trials import REFUSED, spread_over, tried


def name(sheet, ending):
    """A sheet's file: six digits at least, so that they sort as they are counted."""
    return f'{sheet + 1:06}.{ending}'


def write_sheets(made, folder):
    """Writes every sheet, what is to be collected later, and nothing else. The folder gets its name when all is in it."""
    folder = Path(folder)
    if folder.exists() and (not folder.is_dir() or any(folder.iterdir())):
        raise Stop(f'{folder} is there already and not empty. Name a new folder by --sheets.')
    sheets = made.sheets(origin_of(made))
    made.leave_out(sheets.origin)
    part = folder.with_name(f'.{folder.name}.{os.getpid()}.part')
    try:
        part.mkdir(parents=True)
        with Bar('sheets', len(made.nodes), made.options.progress) as bar:
            for sheet in range(len(sheets)):
                (part / name(sheet, 'survey')).write_bytes(sheets[sheet])
                first, end = sheets.span(sheet)
                bar.step(end - first)
        if made.grid is None:
            (part / LIST).write_text(''.join(listed(made.nodes, made.outside)), encoding='utf-8')
        (part / KEPT).write_text(json.dumps(kept(made, sheets.origin), indent=1) + '\n', encoding='utf-8')
        os.replace(part, folder)
    except OSError as error:
        raise Stop(f'{folder} cannot be written: {error.strerror}.')
    finally:
        shutil.rmtree(part, ignore_errors=True)
    made.tell(f'{counted(len(made.nodes), "node")} on {counted(len(sheets), "sheet")} in {folder}. Run each, then: map --collect {folder}')


def origin_of(made):
    """Where the sheets' coordinates are counted from: as asked, else by one sheet of nodes spread over the map."""
    to = made.corner
    if made.options.origin == 'as-entered':
        return AS_ENTERED
    if made.options.origin == 'moved':
        made.say(as_asked(to))
        return to
    spread = spread_over(made.nodes)
    entered = tried(made, AS_ENTERED, spread)
    moved = tried(made, to, spread) if entered != len(spread) and to != AS_ENTERED else None
    if max(entered, REFUSED if moved is None else moved) == REFUSED:
        raise made.refused(19)
    which = to if moved is not None and moved > entered else AS_ENTERED
    said = f'{max(entered, 0)} of {counted(len(spread), "node")} spread over the map pass as entered'
    said += '' if moved is None else f', {max(moved, 0)} with the origin moved to {named(to)}'
    (made.tell if moved is None else made.say)(f'{said}. On the sheets: {"as entered" if which == AS_ENTERED else "moved"}.')
    return which
