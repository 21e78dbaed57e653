"""The legends of the two pictures: classes with their colours, lines, and signs."""
from html import escape

from mapper.drawing.colours import hexadecimal
from mapper.drawing.doubted_wells import doubted_wells
from mapper.drawing.outside_wells import any_outside
from mapper.drawing.scales import plain
from mapper.runs.trend_words import drawn_slope, is_doubted

ARROW = '<path d="M2 7.2L14 6V2.5L24 8L14 13.5V10L2 8.8Z" class="trend%s"/>'
HATCHED = ('<path d="M0.5 0.5h25v15h-25z" fill="#fff" stroke="#555"/><path d="M1 8L8 1M1 15L15 1M9 15L23 1M17 15L25 7" stroke="#6b6b6b" '
           'stroke-width="2"/>')
LINE = '<path d="M1 12C8 12 14 4 25 4" class="contour%s"/>'


def swatch(fill):
    """A patch of the legend, drawn so that printers do not leave it out as they do backgrounds."""
    return '<svg class="swatch" viewBox="0 0 26 16" aria-hidden="true">%s</svg>' % fill


def patch(colour, over=''):
    return swatch('<rect x="0.5" y="0.5" width="25" height="15" fill="%s" stroke="#555"/>%s' % (hexadecimal(colour), over))


def class_items(classes):
    """The classes, the highest first as it stands on a hill."""
    return [patch(classes.colours[k]) + escape(classes.words(k)) for k in reversed(range(len(classes.colours)))]


def line_items(made, m):
    """Contour lines of both kinds, and the trend's arrow."""
    items, (certain, unsure) = [], made.kinds_of_lines
    every = ', every %s m' % escape(plain(made.level_classes.step))
    if certain:
        items.append(swatch(LINE % '') + 'contour line' + every)
    if unsure:
        items.append(swatch(LINE % ' unsure') + 'contour line, uncertain: ± above %s m' % escape(plain(made.unsure_above, 2)) + ('' if certain else every))
    if drawn_slope(m):
        items.append(swatch(ARROW % (' doubted' if is_doubted(m) else '')) + ('trend, to be doubted' if is_doubted(m) else 'fall of the trend'))
    return items


def signs(classes, shown, m, made):
    """What both pictures have: paled ground, hatching, wells."""
    items = []
    if shown and any_outside(m.nodes, m.grid, made.hull, made.ground):
        middle = classes.colours[len(classes.colours) // 2]
        items.append(patch(middle, '<path d="M13.5 1H25V15H1.5Z" class="outside"/>') + 'paled: outside the wells, not known')
    if m.runs[m.drawn].failed:
        items.append(swatch(HATCHED) + 'did not pass: no level')
    items.append(swatch('<circle cx="13" cy="8" r="3.6" class="well"/>') + 'well')
    if any(doubted_wells(m)):
        items.append(swatch('<circle cx="13" cy="8" r="6.4" class="ring"/><circle cx="13" cy="8" r="3.6" class="well"/>') + 'well that a doubt names')
    return items


def legend(kind, heading, classes, items):
    return '<div class="legend of-%s"><h2>%s</h2><ul>%s</ul></div>' % (kind, heading, ''.join('<li>%s</li>' % item for item in items))


def legends(m, made):
    """Both legends, of which one is shown with its picture."""
    shown = 1 in made.good
    parts = []
    for kind, heading, classes, more in (('level', 'Level, m', made.level_classes, line_items(made, m)),
                                         ('deviation', 'Standard deviation, m', made.deviation_classes, [])):
        parts.append(legend(kind, heading, classes, (class_items(classes) if shown else []) + more + signs(classes, shown, m, made)))
    return ''.join(parts)
