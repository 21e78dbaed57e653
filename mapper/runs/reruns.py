"""Listings that were made elsewhere, held to their surveys: a part of the sheets is run again, and has to give the same bytes.

A listing does not say which survey it is of. One that was copied, comes from another program or from other wells, or was changed by hand is whole all the
same, and its audit says that all passed. So the surveys are made anew from what the folder keeps of the map, and run by the program that is here.
"""
import hashlib
from collections import defaultdict
from concurrent.futures import ThreadPoolExecutor

from mapper.errors import Stop
from mapper.naming import several
from mapper.numbers import counted
from mapper.progress import Bar
from mapper.runs.by_program import printed
from mapper.runs.sheet_folder import name

LEAST = 3     # sheets that are run again, where there are as many
ONE_IN = 50
SHOWN = 5     # sets of listings that are named


def spread(sheets):
    """The sheets that are run again of so many, from the first to the last."""
    count = min(sheets, max(LEAST, -(-sheets // ONE_IN)))
    return [round(i * (sheets - 1) / max(count - 1, 1)) for i in range(count)]


def repeats(sums):
    """The sheets whose listings are the same byte for byte, a list for each such listing."""
    same = defaultdict(list)
    for sheet, found in enumerate(sums):
        same[found].append(sheet)
    return [sheets for sheets in same.values() if len(sheets) > 1]


def held_to_the_program(folder, sheets, sums, program, jobs, progress, tell):
    """Runs a part of the sheets again, and ends the run where the program prints something else than the listing with this checksum.

    Gives what is to be said on the page: listings that are the same, and right.
    """
    same = repeats(sums)
    chosen = sorted({*spread(len(sheets)), *(sheet for group in same for sheet in group)})
    wrong = different(sheets, chosen, sums, program, jobs, progress)
    if wrong:
        raise Stop(difference(folder, sheets, wrong, chosen, sums, program))
    tell(f'Held to the program by running sheets again: {len(chosen):,} of {counted(len(sheets), "listing")}, and it prints the same.')
    notes = [f'{listings(group)} are the same byte for byte; their sheets were run again, and it is right.' for group in same[:SHOWN]]
    if len(same) > SHOWN:
        notes.append(f'The same holds for {counted(len(same) - SHOWN, "more set")} of listings.')
    for note in notes:
        tell(note)
    return notes


def different(sheets, chosen, sums, program, jobs, progress):
    """Those of the chosen sheets for which the program prints something else."""
    wrong = []
    with Bar('run again', sum(end - first for first, end in map(sheets.span, chosen)), progress) as bar, ThreadPoolExecutor(jobs) as pool:
        for sheet, listing in zip(chosen, pool.map(lambda k: printed(program, sheets[k]), chosen)):
            if hashlib.sha256(listing).digest() != sums[sheet]:
                wrong.append(sheet)
            first, end = sheets.span(sheet)
            bar.step(end - first)
    return wrong


def difference(folder, sheets, wrong, chosen, sums, program):
    """What is said of listings that the program does not print."""
    its, it, is_ = ('its sheet', 'it', 'is') if len(wrong) == 1 else ('their sheets', 'them', 'are')
    said = [f'{listings(wrong)} in {folder} {is_} not what the program prints for {its}; {len(chosen):,} of {counted(len(sums), "listing")} were tried.']
    said += list(copies(wrong, sums))[:SHOWN]
    changed = next((sheet for sheet in wrong if survey_changed(folder / name(sheet, 'survey'), sheets[sheet])), None)
    if changed is not None:
        said.append(f'{name(changed, "survey")} is not that of map.json either: write the sheets anew, and run them all.')
    else:
        said.append(f'Run {it} again with this program, {program}, and whatever else was run in the same way; then collect again.')
    return ' '.join(said)


def copies(wrong, sums):
    """Whose the wrong listings are that another sheet has, too."""
    for group in repeats(sums):
        bad, right = [sheet for sheet in group if sheet in wrong], [sheet for sheet in group if sheet not in wrong]
        whose = f'that of sheet {right[0] + 1}' if right else 'the same byte for byte'
        if bad:
            yield f'{listings(bad)} {"is" if len(bad) == 1 else "are"} {whose}.'


def listings(sheets):
    """Some listings by name."""
    return several(name(sheet, 'listing') for sheet in sheets)


def survey_changed(path, survey):
    """Whether the folder has another survey for a sheet than the one that is due."""
    return path.is_file() and path.read_bytes() != survey
