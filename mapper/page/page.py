"""The page of a map: one HTML file that needs no network and prints on two sheets at most."""
import os
from html import escape

from mapper.drawing.frame import field_grid
from mapper.drawing.hover import script_data
from mapper.drawing.map_drawing import drawing
from mapper.drawing.scales import count, counted
from mapper.drawing.scene import definitions, scene
from mapper.drawing.semivariogram_chart import bin_words, chart, model_words
from mapper.drawing.sheet import SIZES
from mapper.drawing.thinning import MOST_NODES
from mapper.page.banner import banner, told
from mapper.page.foot import foot
from mapper.page.leave_one_out import left_out_part
from mapper.page.legend import legends
from mapper.page.print_layout import layout
from mapper.page.tables import number_list, origin_words, run_table, verdict_table
from mapper.page.well_table import well_part
from mapper.runs.trend_words import drawn_slope, trend_sentence, way_words

HERE = os.path.dirname(os.path.abspath(__file__))


def beside(name):
    """The text of a file that lies beside this one."""
    with open(os.path.join(HERE, name), encoding='utf-8') as file:
        return file.read()


def notes(m):
    """The trend first, which is an answer; then what was moved, fitted or left out."""
    sentences = [sentence for sentence in (trend_sentence(m), *m.notes) if sentence]
    return '<ul class="notes">%s</ul>' % ''.join(map(told, sentences)) if sentences else ''


def subtitle(m):
    """The survey in a line."""
    trend = '%s trend' % m.trend + (' and column %s' % m.external if m.external else '')
    return '%s, %s, %s, %s model' % (counted(len(m.wells), 'well'), counted(len(m.nodes), 'node'), trend, m.variogram.model)


SWITCH = ('<input type="radio" name="shown" id="show-level" checked><label for="show-level">Level</label>'
          '<input type="radio" name="shown" id="show-deviation"><label for="show-deviation">Standard deviation (root of the variance)</label>')


def thin_words(m):
    """What a reader of a large map has to know."""
    if len(m.nodes) <= MOST_NODES:
        return ''
    lines = 'Contour lines and hovering are' if field_grid(m) else 'Hovering is'
    return '<p class="thin">%s from a part of the %s; the table file has every node.</p>' % (lines, counted(len(m.nodes), 'node'))


def picture_words(m):
    """The map for those who cannot see it."""
    run, slope = m.runs[m.drawn], drawn_slope(m)
    arrow = ' An arrow points the way the trend falls: %s.' % way_words(m, slope) if slope else ''
    return 'Map of the water table, north up, %s. %s of %s have a level.%s The ground outside the wells is paled. Drawn: %s.' % (
        subtitle(m), count(run.passed), counted(len(m.nodes), 'node'), arrow, origin_words(run))


def figure(m, made, height):
    """The map in all its sizes, of which a screen shows one; its switch and legends."""
    sheets, numbered = [], []
    for size in SIZES:
        sheet, by_number = drawing(m, made, size, origin_words(m.runs[m.drawn]), picture_words(m))
        sheets.append(sheet)
        if by_number:
            numbered.append('<p class="thin %s">Where there is no room for a name, a well is marked by its number under Wells.</p>' % size.name)
    return ''.join((
        '<figure style="--map-height:%.0fmm">' % height, SWITCH,
        '<div class="drawing">%s%s<div class="told" role="status" hidden></div></div>' % (definitions(made), ''.join(sheets)),
        '<figcaption><div>%s</div><div>%s%s%s</div></figcaption></figure>' % (legends(m, made), run_table(m), thin_words(m), ''.join(numbered))))


def section(name, heading, body):
    return '<section class="%s"><h2>%s</h2>%s</section>' % (name, heading, body) if body else ''


def refused(m):
    """What failed, and what was turned away, with reasons."""
    sentences = ''.join(map(told, m.refused))
    body = verdict_table(m) + ('<ul>%s</ul>' % sentences if sentences else '')
    return section('refused', 'What failed or was refused', body or '<p>Nothing: the arithmetic held at every node.</p>')


def side(m, made):
    """What stands beside the map: the charts, and the survey in numbers."""
    return '<div class="side%s">%s%s%s</div>' % (
        ' of-three' if m.left_out else '',
        section('semivariogram', 'Semivariogram', chart(m) + '<p>%s %s</p>' % (escape(model_words(m.variogram)), bin_words(m))),
        section('left-out', 'Each well as the others tell it', left_out_part(m)),
        section('numbers', 'The survey in numbers', number_list(m, made)))


def page(m):
    """The whole page of a map, as HTML text."""
    made, paper = scene(m), layout(m)
    title = escape(m.title)
    return '\n'.join((
        '<!DOCTYPE html>', '<html lang="en">', '<head>', '<meta charset="utf-8">',
        '<meta name="viewport" content="width=device-width, initial-scale=1">', '<title>%s: water table</title>' % title,
        '<style>', beside('style.css'), '</style>', '</head>', '<body style="--shrinking:%.2f">' % paper.shrinking,
        '<header><h1>%s</h1><p class="subtitle">Water table: %s</p>%s%s</header>' % (title, escape(subtitle(m)), banner(m), notes(m)),
        '<main>', figure(m, made, paper.map_height), side(m, made), refused(m), section('wells-part', 'Wells', well_part(m)), '</main>', foot(m),
        '<script type="application/json" id="told">%s</script>' % script_data(m, made),
        '<script>', beside('page.js'), '</script>', '</body>', '</html>', ''))
