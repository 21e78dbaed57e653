"""The semivariogram: bins as dots, as large as their pairs are many, and the model's curve."""
import math
from html import escape

from mapper.drawing.labels import text_width
from mapper.drawing.scales import counted, decimals, fixed, plain, power_form, round_step
from mapper.model.variogram_models import FORMULAS, REACH

BROAD, HIGH, FONT = 380.0, 250.0, 12.0
LEFT, RIGHT, TOP, BELOW = 56.0, 368.0, 36.0, 208.0  # the frame
SOURCES = {'fitted': 'fitted to the bins', 'plain': 'a plain one, since there was nothing to fit'}


def model_at(variogram, distance):
    """The model, or None where its numbers give none, as a linear one of range 0 does not."""
    try:
        value = variogram.at(distance)
    except (ZeroDivisionError, OverflowError):
        return None
    return value if math.isfinite(value) else None


def finite_bins(bins):
    return [b for b in bins if math.isfinite(b.distance) and math.isfinite(b.semivariance)]


def curve_points(variogram, far):
    """The curve from 0, where the nugget shows, to the farthest distance drawn."""
    found = ((far * k / 120, model_at(variogram, far * k / 120)) for k in range(121))
    return [(h, value) for h, value in found if value is not None]


def axis(top, most):
    """A step and its ticks from 0 to the first one at or past `top`."""
    step = round_step(top, most)
    count = max(1, math.ceil(top / step - 1e-9))
    return step, [k * step for k in range(count + 1)]


def tick_words(value, step, room=math.inf):
    """A number of an axis, by a power of ten where it is too broad for its room."""
    words = plain(value, 4) if decimals(step) > 5 or value >= 1e7 else fixed(value, decimals(step))
    return words if text_width(words, FONT) <= room else power_form(value, 3)


def text(x, y, words, more=''):
    return '<text x="%.1f" y="%.1f"%s>%s</text>' % (x, y, more, escape(words))


def pair_counts(bins, x_of):
    """How many pairs a bin has, above it, as many as fit beside each other."""
    parts, free = [], -math.inf
    for b in bins:
        words = str(b.pairs)
        half = text_width(words, FONT * 0.9) / 2
        if x_of(b.distance) - half > free:
            parts.append(text(x_of(b.distance), TOP - 13, words, ' text-anchor="middle" class="small"'))
            free = x_of(b.distance) + half + 3
    return ''.join(parts)


def axes(across, up, x_of, y_of):
    (x_step, xs), (y_step, ys) = across, up
    parts = ['<path d="M%.1f %.1fV%.1fH%.1f" class="axis"/>' % (LEFT, TOP, BELOW, RIGHT)]
    for x in xs:
        words = tick_words(x, x_step)
        at = min(x_of(x), BROAD - text_width(words, FONT) / 2)
        parts.append('<path d="M%.1f %.1fv4" class="axis"/>' % (x_of(x), BELOW) + text(at, BELOW + 18, words, ' text-anchor="middle"'))
    for y in ys:
        parts.append('<path d="M%.1f %.1fH%.1f" class="rule"/>' % (LEFT, y_of(y), RIGHT)
                     + text(LEFT - 6, y_of(y) + 4, tick_words(y, y_step, LEFT - 8), ' text-anchor="end"'))
    parts.append(text((LEFT + RIGHT) / 2, BELOW + 37, 'distance between two wells, m', ' text-anchor="middle"'))
    return ''.join(parts)


def chart(m):
    """The semivariogram as SVG."""
    bins = finite_bins(m.bins)
    reach = abs(m.variogram.range) if math.isfinite(m.variogram.range) else 0.0
    far = max([b.distance for b in bins], default=0.0) * 1.06 or reach * 1.3 or 1.0
    curve = curve_points(m.variogram, far)
    top = max([b.semivariance for b in bins] + [v for _, v in curve], default=0.0)
    across, up = axis(far, 5), axis(top if top > 0 else 1.0, 5)
    x_of = lambda h: LEFT + (RIGHT - LEFT) * (h / across[1][-1])
    y_of = lambda v: BELOW - (BELOW - TOP) * (max(v, 0.0) / up[1][-1])
    most = max((b.pairs for b in bins), default=1)
    dots = ''.join('<circle cx="%.1f" cy="%.1f" r="%.1f" class="%s"><title>%s</title></circle>' % (
        x_of(b.distance), y_of(b.semivariance), 2 + 3.5 * (b.pairs / most) ** 0.5, 'bin' if b.used else 'bin unused',
        escape('%s around %s m: %s' % (counted(b.pairs, 'pair'), plain(b.distance, 4), plain(b.semivariance, 4)))) for b in bins)
    line = 'M' + 'L'.join('%.1f %.1f' % (x_of(h), y_of(v)) for h, v in curve) if curve else ''
    return ('<svg xmlns="http://www.w3.org/2000/svg" class="chart" viewBox="0 0 %d %d" role="img" aria-labelledby="t-chart d-chart">'
            '<title id="t-chart">Semivariogram</title><desc id="d-chart">%s</desc>' % (BROAD, HIGH, escape(model_words(m.variogram)))
            + axes(across, up, x_of, y_of) + text(2, TOP - 13, 'pairs', ' class="small"') + pair_counts(bins, x_of)
            + '<path d="%s" class="curve"><title>%s</title></path>' % (line, escape(FORMULAS[m.variogram.model])) + dots + '</svg>')


def bin_words(m):
    """What the dots are."""
    if len(m.bins) < 2:
        return 'The dot: the average over %s of wells.' % counted(m.bins[0].pairs, 'pair') if m.bins else ''
    unused = m.variogram.fitted and not all(b.used for b in m.bins)
    return 'Dots: averages over pairs of wells.' + (' The model was not fitted to hollow ones, whose pairs are far apart.' if unused else '')


def source_words(variogram):
    """Where a model's numbers come from."""
    if variogram.how not in SOURCES:
        return 'as given'
    some = ' and '.join(variogram.given)
    return f'{some} as given and else {SOURCES[variogram.how]}' if some else SOURCES[variogram.how]


def model_words(variogram):
    """The model and its numbers in a sentence; of a model that only comes near its top, where 95 in a hundred of the rise are done."""
    reach = REACH[variogram.model]
    near = ' (95 %% of the rise at %s m)' % plain(reach * variogram.range, 3) if reach > 1 else ''
    return '%s model, %s: nugget %s, sill %s, range %s m%s.' % (
        variogram.model.capitalize(), source_words(variogram),
        plain(variogram.nugget, 5), plain(variogram.sill, 5), plain(variogram.range, 5), near)
