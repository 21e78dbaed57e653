"""The map of a folder of sheets, from their listings."""
import hashlib
import os
from pathlib import Path

from mapper.errors import Refused, Stop
from mapper.naming import several
from mapper.numbers import counted
from mapper.progress import Bar
from mapper.runs.answers import Damaged
from mapper.runs.building import program
from mapper.runs.kept_map import KeptMap
from mapper.runs.listing import parsed
from mapper.runs.refusals import refusal
from mapper.runs.reruns import held_to_the_program
from mapper.runs.running import fill, tally
from mapper.runs.sheet_folder import name


def collected(folder, progress=False, jobs=os.cpu_count() or 1, tell=print):
    """The map of a folder's listings, which are held to their surveys: all by their nodes, and some by running them again."""
    folder = Path(folder)
    kept = KeptMap(folder)
    sheets = kept.sheets()
    there(folder, len(sheets))
    sums = []
    with Bar('collect', len(sheets.nodes), progress) as bar:
        for sheet in range(len(sheets)):
            sums.append(take(folder / name(sheet, 'listing'), sheets, sheet, sums))
            first, end = sheets.span(sheet)
            bar.step(end - first)
    notes = held_to_the_program(folder, sheets, sums, program(tell, progress), jobs, progress, tell)
    return kept.map(tally(sheets), notes)


def there(folder, sheets):
    """Ends the run where listings are missing, and names them."""
    missing = [name(sheet, 'listing') for sheet in range(sheets) if not (folder / name(sheet, 'listing')).is_file()]
    if missing:
        raise Stop(f'{counted(len(missing), "listing")} missing in {folder}: {several(missing)}. Run their sheets, then collect again.')


def take(path, sheets, sheet, sums):
    """Fills in a sheet's nodes from its listing, and gives the listing's checksum; those of the sheets before it are `sums`."""
    try:
        listing = path.read_bytes()
        found = hashlib.sha256(listing).digest()
        first, end = sheets.span(sheet)
        fill(sheets, sheet, parsed(listing, end - first))
    except Damaged as damaged:
        other = f'; it is the same byte for byte as {name(sums.index(found), "listing")}' if found in sums else ''
        raise Stop(f'{path} is not whole: {damaged}{other}. Run its sheet again.')
    except Refused as refused:
        survey = sheets.survey
        raise Stop(f'{path}: {refusal(refused.number, survey.wells, survey.trend, survey.external)}')
    except OSError as error:
        raise Stop(f'{path} cannot be read: {error.strerror}.')
    return found
