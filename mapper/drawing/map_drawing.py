"""One size of the map as SVG: wells, labels and the trend's arrow on its sheet, around the shared ground."""
from html import escape

from mapper.drawing.arrow import Room, placed
from mapper.drawing.doubted_wells import doubted_wells
from mapper.drawing.frame import ends, field_grid
from mapper.drawing.ground import dot_radius
from mapper.drawing.labels import Box, line_labels, short_name, square, text_width, well_labels
from mapper.drawing.outside_wells import grown, label_place
from mapper.drawing.scales import alike
from mapper.drawing.sheet import FONT, NARROW, RADIUS, RING, STRONG, Sheet, fitted, frame_numbers, haloed, north_arrow, scale_bar, text
from mapper.runs.trend_words import arrow_words, drawn_slope, is_doubted


def well_texts(number, well, level):
    """What may stand beside a well: name and level, the name, or its number in the table."""
    name = short_name(well.name)
    return ['%s %s' % (name, level), name, '#%d' % number]


def dots(m, ground, sheet):
    """Boxes around the dots of a list of nodes, which labels keep free; none where they are too many to keep free."""
    if field_grid(m) or len(m.nodes) > 400:
        return []
    half = dot_radius(len(m.nodes)) * sheet.scale
    return [square(*sheet.place(ground.x(x), ground.y(y)), half) for x, y in zip(m.nodes.x, m.nodes.y)]


def well_places(m, ground, sheet):
    return [sheet.place(ground.x(w.x), ground.y(w.y)) for w in m.wells]


def spared(m, made, sheet):
    """Boxes that the arrow leaves free where it can: the dots of a list, and in a grid the cells of nodes that failed, so that it hides no failure."""
    if not field_grid(m):
        return dots(m, made.ground, sheet)
    if made.large:
        return []
    half = max(abs(m.grid.dx), abs(m.grid.dy)) / 2 * made.ground.unit / 2 * sheet.scale
    failed = [at for at, good in enumerate(made.good) if not good]
    return [square(*sheet.place(made.ground.x(m.nodes.x[at]), made.ground.y(m.nodes.y[at])), half) for at in failed[::1 + len(failed) // 200]]


def arrow_texts(m, slope):
    """What may stand beside the arrow, the most wanted first, each a list of lines. With an external column the slope is only what that leaves over, and
    must not be taken for the whole."""
    if not m.external:
        return [[arrow_words(slope)]]
    return [[arrow_words(slope), more] for more in ('apart from ' + short_name(m.external), 'in part')]


def arrow_with(lines, turn, room):
    """The arrow beside which these lines have room, None where there is none."""
    width = max(text_width(lines[0], STRONG), *(text_width(line, FONT) for line in lines)) + 2
    return placed(turn, width, STRONG * 1.15 + FONT * 1.15 * (len(lines) - 1), room)


def trend_arrow(m, made, sheet):
    """The arrow down the trend as SVG, and the boxes that it takes; nothing where there is no slope to draw, or no room for it."""
    slope = drawn_slope(m)
    if slope is None:
        return '', []
    room = Room(sheet.frame, well_places(m, made.ground, sheet), RADIUS + 2, spared(m, made, sheet))
    for lines in arrow_texts(m, slope):
        arrow = arrow_with(lines, slope.turn, room)
        if arrow:
            return arrow_marks(arrow, lines, is_doubted(m)), arrow.boxes()
    return '', []


def arrow_marks(arrow, lines, doubted):
    """An arrow, hollow where it is doubted, and its label as SVG."""
    x, y = (arrow.label.left + arrow.label.right) / 2, arrow.label.top + STRONG * 0.85
    sign = '<path d="%s" class="trend%s" transform="translate(%.1f %.1f) rotate(%.1f)"/>' % (
        arrow.path(), ' doubted' if doubted else '', arrow.x, arrow.y, arrow.turn)
    label = text(x, y, lines[0], ' class="halo strong" text-anchor="middle"')
    return sign + label + ''.join(haloed(x, y + FONT * 1.15 * k, line, ' text-anchor="middle"') for k, line in enumerate(lines[1:], 1))


def wells(m, ground, sheet, kept):
    """Wells and their labels as SVG, the boxes they take, those kept for the arrow included, and whether some are marked by their number."""
    places = well_places(m, ground, sheet)
    levels = alike([w.level for w in m.wells], 6)
    texts = [well_texts(k, w, level) for k, (w, level) in enumerate(zip(m.wells, levels), 1)]
    around = lambda some: well_labels(places, some, FONT, RADIUS + 1, sheet.frame, dots(m, ground, sheet), kept)
    labels, taken = around(texts)
    if sheet.width < NARROW and any(one is None or one.text != words[0] for one, words in zip(labels, texts)):
        labels, taken = around([words[1:] for words in texts])  # crowded and narrow: names alone, their levels are in the table
    parts = ['<circle cx="%.1f" cy="%.1f" r="%.1f" class="ring"/>' % (x, y, RING) for (x, y), doubted in zip(places, doubted_wells(m)) if doubted]
    parts += ['<circle cx="%.1f" cy="%.1f" r="%.1f" class="well"/>' % (x, y, RADIUS) for x, y in places]
    parts += [haloed(one.x, one.y, one.text) for one in labels if one]
    numbered = any(one is None or one.text == words[-1] for one, words in zip(labels, texts))
    return ''.join(parts), taken, numbered


def outside_label(m, made, sheet, taken):
    """The words on the ground outside the wells as SVG, if there is room for them; what they take is added to `taken`."""
    if 1 not in made.good:
        return ''
    area = sheet.frame
    if field_grid(m):  # only where nodes are: the margin around them is no ground
        (west, east), (south, north) = ends(m.nodes.x), ends(m.nodes.y)
        area = Box(*sheet.place(made.ground.x(west), made.ground.y(north)), *sheet.place(made.ground.x(east), made.ground.y(south)))
    found = label_place([sheet.place(*corner) for corner in made.hull], area, taken + dots(m, made.ground, sheet), FONT)
    if found is None:
        return ''
    lines, box = found
    taken.append(grown(box, 2))
    middle = (box.left + box.right) / 2
    return ''.join(text(middle, box.top + FONT * (0.9 + 1.15 * k), line, ' class="halo unknown" text-anchor="middle"') for k, line in enumerate(lines))


def contour_labels(contours, classes, sheet, taken):
    on_sheet = [[[sheet.place(x, y) for x, y in line] for line in bound_lines] for bound_lines in contours]
    words = [classes.bound_words(b) for b in classes.bounds]
    return ''.join(
        haloed(0, FONT * 0.36, one.text, ' text-anchor="middle" transform="translate(%.1f %.1f) rotate(%.1f)"' % (one.x, one.y, one.turn))
        for one in line_labels(on_sheet, words, FONT, sheet.frame, taken))


def hatching(name, scale):
    """Stripes as broad on every size of the map."""
    return ('<pattern id="hatch-%s" width="7" height="7" patternUnits="userSpaceOnUse" patternTransform="scale(%.4f) rotate(45)">'
            '<rect width="7" height="7" fill="#fff"/><rect width="2" height="7" fill="#858585"/></pattern>' % (name, 1 / scale))


def ground_layers(made, size):
    """The shared ground: levels with their lines, deviations, what pales them outside the wells, the hatching, and a line around it.

    The hatching lies on top, so that no colour runs into it; but under a picture, which is clear where it is to show.
    """
    use = '<use href="#%s"%s/>'
    failed = use % ('ground-failed', ' fill="url(#hatch-%s)"' % size.name)
    outside = use % ('ground-outside', ' mask="url(#ground-figures)"' if made.large else '') + use % ('ground-hull', '')
    figures = '<g class="of-level">%s%s</g><g class="of-deviation">%s</g>%s' % (
        use % ('ground-level', ''), use % ('ground-lines', ''), use % ('ground-deviation', ''), outside)
    return (failed + figures if made.large else figures + failed) + use % ('ground-border', '')


def drawing(m, made, size, drawn, words):
    """The map in one size, and whether wells are marked by number; `drawn` says which run it shows, `words` what there is to see."""
    ground = made.ground
    sheet = Sheet(ground, size)
    f = sheet.frame
    arrow, kept = trend_arrow(m, made, sheet)
    well_marks, taken, numbered = wells(m, ground, sheet, kept)
    outside = outside_label(m, made, sheet, taken)
    labels = contour_labels(made.contours, made.level_classes, sheet, taken)
    return ''.join((
        '<svg xmlns="http://www.w3.org/2000/svg" class="map %s" viewBox="0 0 %.1f %.1f" style="max-width:%dpx" '
        % (size.name, sheet.broad, sheet.high, round(sheet.broad * 1.2)),
        'role="img" preserveAspectRatio="xMinYMin" aria-labelledby="t-%s d-%s" tabindex="0">' % (size.name, size.name),
        '<title id="t-%s">%s</title><desc id="d-%s">%s</desc>' % (size.name, escape(m.title), size.name, escape(words)),
        '<defs>%s<clipPath id="clip-%s"><rect width="%.1f" height="%.1f"/></clipPath></defs>'
        % (hatching(size.name, sheet.scale), size.name, ground.width, ground.height),
        '<g transform="translate(%.1f %.1f) scale(%.5f)" clip-path="url(#clip-%s)">%s</g>'
        % (sheet.left, sheet.top, sheet.scale, size.name, ground_layers(made, size)),
        '<rect x="%.1f" y="%.1f" width="%.1f" height="%.1f" class="frame"/>' % (f.left, f.top, sheet.width, sheet.height),
        frame_numbers(ground, sheet), outside, '<g class="of-level">%s%s</g>' % (labels, arrow), well_marks,
        scale_bar(ground, sheet), north_arrow(sheet),
        fitted(sheet.left, f.bottom + FONT * 5.3, 'Drawn: ' + drawn, f.right - f.left),
        '<circle r="6" class="mark" visibility="hidden"/></svg>')), numbered
