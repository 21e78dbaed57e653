"""The table of the wells: place, level, and what the other wells say of each."""
import math
from html import escape

from mapper.drawing.doubted_wells import doubted_wells
from mapper.drawing.scales import MINUS, alike, fixed, power_form
from mapper.page.leave_one_out import TOO_FEW

HEADS = (('no n', 'No.', ''), ('name', 'Well', ''), ('x n', 'x, m', ''), ('y n', 'y, m', ''), ('level n', 'Level, m', ''))
OTHERS = (('others n', 'Others say, m', 'the level that the other wells give at the well'), ('off n', 'Off by, m', "the list's level less that"),
          ('spread n', 'Off by, ±', 'the same, counted in their standard deviations'))
SAYS = ("Others say: the level that the other wells give at the well when it is left out. Off by: the list's level less that, in metres and counted in "
        'standard deviations (±).')
NAMED = ' A well marked ! is named by a doubt.'
JOINED = ' A well marked = #1 is taken to be at the spot of well #1; its x and y are as the list has them.'
NOTHING = '–'


def figures(value, places):
    """A number with so many figures after the point, and fewer the larger it is, so that it stays in its column."""
    if abs(value) >= 1e6:
        return power_form(value, 3)
    return fixed(value, max(0, places - (abs(value) >= 100) - (abs(value) >= 1000)))


def signed(value, places):
    """A difference with its sign; none before a zero."""
    words = figures(value, places)
    return '+' + words if value > 0 and words.strip('0.') else words


def others_cells(well, left):
    """What the other wells say of a well, and how far off its level is from that."""
    if left.level is None:
        return [NOTHING] * 3
    off = well.level - left.level
    spread = signed(off / left.deviation, 1) if left.deviation and math.isfinite(off / left.deviation) else NOTHING
    return [fixed(left.level, 2) if abs(left.level) < 1e5 else power_form(left.level, 4), signed(off, 2) if math.isfinite(off) else NOTHING, spread]


def row(heads, cells, doubted, joined):
    """A well's cells; beside its name stand that a doubt names it, and which well's spot it is taken at."""
    before = '<b class="named" title="a doubt names this well">!</b> ' if doubted else ''
    after = ' <span class="joined" title="taken to be at the spot of this well">%s</span>' % escape(joined) if joined else ''
    inner = ''.join('<td class="%s">%s</td>' % (kind, before + escape(cell) + after if kind == 'name' else escape(cell))
                    for (kind, _, _), cell in zip(heads, cells))
    return '<tr%s>%s</tr>' % (' class="doubted"' if doubted else '', inner)


def head(heads):
    return '<thead><tr>%s</tr></thead>' % ''.join(
        '<th class="%s"%s>%s</th>' % (kind, ' title="%s"' % escape(more) if more else '', escape(words)) for kind, words, more in heads)


def columns_of(m):
    """The wells' places and levels as they are shown: as the list has them."""
    return [alike([of(w) for w in m.wells]) for of in (lambda w: w.listed_place[0], lambda w: w.listed_place[1], lambda w: w.level)]


def joined_marks(m):
    """For each well that is joined to another the number of that one, '= #3'; else nothing."""
    first = {}
    for k, well in enumerate(m.wells, 1):
        first.setdefault((well.x, well.y), k)
    return ['= #%d' % first[well.x, well.y] if well.entered else '' for well in m.wells]


def place_letters(m):
    """How many digits the broadest coordinate is broad; a point or a thin space takes half of one."""
    return max((sum(1 if letter.isalnum() or letter == MINUS else 0.5 for letter in words) for column in columns_of(m)[:2] for words in column), default=0)


def well_rows(m, heads):
    columns = columns_of(m)
    others = [others_cells(well, left) for well, left in zip(m.wells, m.left_out)] or [[]] * len(m.wells)
    return [row(heads, ['#%d' % k, well.name, x, y, level, *more], doubted, joined)
            for k, (well, x, y, level, more, doubted, joined) in enumerate(zip(m.wells, *columns, others, doubted_wells(m), joined_marks(m)), 1)]


def pieces(m):
    """In how many pieces the table is, which stand side by side where there is room."""
    return min(2 if m.left_out else 3, -(-max(1, len(m.wells)) // 8))


def well_table(m):
    """Every well with its number, name, place and level; the number is what a crowded map shows instead of a name."""
    heads = HEADS + (OTHERS if m.left_out else ())
    rows = well_rows(m, heads)
    length = -(-max(1, len(rows)) // pieces(m))
    parts = [''.join(rows[k:k + length]) for k in range(0, len(rows), length)]
    return '<div class="wells%s" style="--place:%.1f">%s</div>' % (
        ' with-others' if m.left_out else '', place_letters(m), ''.join('<table>%s<tbody>%s</tbody></table>' % (head(heads), part) for part in parts))


def table_words(m):
    """What the columns are; why there are none of the others."""
    return (SAYS if m.left_out else TOO_FEW) + (NAMED if any(doubted_wells(m)) else '') + (JOINED if any(joined_marks(m)) else '')


def well_part(m):
    return well_table(m) + '<p class="thin">%s</p>' % escape(table_words(m))
