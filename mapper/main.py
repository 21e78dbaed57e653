"""The command: `./map wells.csv`."""
import sys
from pathlib import Path

from mapper.doubts.far_places import far_node_doubts
from mapper.doubts.judgements import both_words, doubt_lines
from mapper.doubts.levels import node_doubts
from mapper.errors import Stop
from mapper.making import Made
from mapper.options import options
from mapper.output_files import table, write_all
from mapper.page.page import page
from mapper.place_answers import answers
from mapper.runs.collecting import collected
from mapper.runs.lost_digits import drawn_map
from mapper.runs.sheet_folder import write_sheets
from mapper.runs.sheets import Sheets
from mapper.runs.trend_words import trend_sentence
from mapper.telling import tell, write


def main(arguments=None):
    """The status: 0 where the files are written, 1 where it ended in a refusal or a bad list."""
    found = options(arguments)
    try:
        if found.collect is not None:
            m = collected(found.collect, found.progress, found.jobs, tell)
            finish(m, *named(found.out or found.collect, m.title))
        elif found.sheets is not None:
            made = Made(found, tell)
            write_sheets(made, found.sheets)
            tell_all(doubt_lines(made.doubts))
        elif found.at:
            at_places(found)
        else:
            direct(found)
    except Stop as stop:
        print(f'map: {stop}', file=sys.stderr)
        return 1
    except KeyboardInterrupt as stopped:
        print(f'map: {str(stopped) or "stopped; nothing was written"}', file=sys.stderr)
        return 130
    return 0


def direct(found):
    """The normal way: every sheet is run, and the files are written at the end."""
    wells = Path(found.wells)
    files = named(found.out or wells.parent, wells.stem)
    if wells.resolve() in [file.resolve() for file in files]:
        raise Stop(f'{wells} would be written over by the map. Give the list another ending, such as .csv, or name a folder by --out.')
    made = Made(found, tell)
    m, listings = drawn_map(made)
    tell_listings(listings)
    finish(m, *files, kept_surveys(found, made, m))


def at_places(found):
    """Answers at the places that were asked for; no file is written."""
    made = Made(found, tell)
    m, listings = drawn_map(made)
    tell_listings(listings)
    m.doubts += far_node_doubts(m) + node_doubts(m)
    ground_known = made.external is None or made.external == made.ground
    tell_all([*answers(m, found.at, ground_known), *doubt_lines(m.doubts), both_words(m, 'above') + '.'])


def tell_all(sentences):
    for sentence in sentences:
        tell(sentence)


def tell_listings(listings):
    for listing in listings:
        write(listing.decode())


def named(folder, title):
    """The page and the table of a map in a folder, which has to be there."""
    folder = Path(folder)
    if not folder.is_dir():
        raise Stop(f'There is no folder {folder} to write the map to. Make it, or name another by --out.')
    return folder / f'{title}.html', folder / f'{title}.map.csv'


def kept_surveys(found, made, m):
    """The survey files of the run that is drawn: the one named, or one for each sheet, numbered."""
    if found.survey is None:
        return []
    sheets, path = Sheets(made.survey, m.nodes, made.outside, m.runs[m.drawn].origin), Path(found.survey)
    if len(sheets) == 1:
        return [(path, [sheets[0]])]
    return [(path.with_name(f'{path.stem}.{sheet + 1:06}{path.suffix}'), [sheets[sheet]]) for sheet in range(len(sheets))]


def finish(m, html, lines, more=()):
    """Writes the page and the table; says what the trend is and what is doubtful, and in the last line both judgements and what was written."""
    m.doubts += far_node_doubts(m) + node_doubts(m)
    write_all([*more, (html, [page(m).encode()]), (lines, table(m))])
    trend = trend_sentence(m)
    tell_all([*([trend] if trend else []), *doubt_lines(m.doubts), f'{both_words(m, "above and on the page")}: {html} and {lines}'])
