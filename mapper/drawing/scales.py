"""Round steps, ticks, and numbers as a reader wants them."""
import math

THIN = '\u202f'   # a thin space at which a line is not broken
MINUS = '\u2212'
MOST_PLACES = 9   # figures after the point; a number that needs more is told by its power of ten


def round_step(span, most):
    """The smallest of 1, 2 or 5 times a power of ten that divides `span` into at most `most` parts."""
    raw = span / most
    if not (0 < raw < math.inf):
        return 1.0
    power = math.floor(math.log10(raw))
    for p in (power - 1, power, power + 1):  # the logarithm may be off by one at a power of ten
        for digit in (1, 2, 5):
            # Read from decimal text, so that the step is the f64 nearest 0.1 and not a product near it.
            step = float('%de%d' % (digit, max(p, -307)))
            if span <= step * most * (1 + 1e-12):
                return step
    return raw


def decimals(step):
    """How many figures after the point a multiple of `step` needs."""
    if not (0 < step < math.inf):
        return 0
    return max(0, -math.floor(math.log10(step) + 1e-9))


def ticks(low, high, step):
    """The multiples of `step` from `low` to `high`, none where the numbers are too far apart or too close to tell."""
    if not (0 < step < math.inf) or not math.isfinite(low / step) or not math.isfinite(high / step):
        return []
    first, last = math.ceil(low / step - 1e-9), math.floor(high / step + 1e-9)
    if last - first > 500 or low + step == low or high + step == high:
        return []
    places = decimals(step)
    return [round(k * step, places) if places < 300 else k * step for k in range(first, last + 1)]


def grouped(digits):
    """Digits before the point in groups of three from five digits up, so that seven figures can be read."""
    if len(digits) < 5:
        return digits
    head = len(digits) % 3
    groups = [digits[:head]] if head else []
    groups += [digits[i:i + 3] for i in range(head, len(digits), 3)]
    return THIN.join(groups)


def fixed(value, places):
    """`value` with `places` figures after the point; numbers far from 1 by their power of ten."""
    if math.isnan(value):
        return 'not a number'
    if math.isinf(value):
        return (MINUS if value < 0 else '') + '∞'
    if abs(value) >= 1e12 or places > MOST_PLACES:
        return power_form(value, 7)
    text = '%.*f' % (places, value)
    sign = ''
    if text.startswith('-'):
        text = text[1:]
        sign = MINUS if text.strip('0.') else ''  # no minus before a zero
    whole, point, part = text.partition('.')
    return sign + grouped(whole) + point + part


def power_form(value, figures):
    """`value` as a few figures and a power of ten: 1.5e300."""
    text = '%.*e' % (figures - 1, value)
    head, _, power = text.partition('e')
    if '.' in head:
        head = head.rstrip('0').rstrip('.')
    power = int(power)
    return (head + ('e%d' % power if power else '')).replace('-', MINUS)


def plain(value, figures=7, most=math.inf):
    """`value` to so many figures, and at most so many after the point, without zeros at the end."""
    if value == 0 or not math.isfinite(value):
        return '0' if value == 0 else fixed(value, 0)
    size = math.floor(math.log10(abs(value)))
    if size < -5 or size >= 12:
        return power_form(value, figures)
    text = fixed(value, min(most, max(0, figures - 1 - size)))
    return text.rstrip('0').rstrip('.') if '.' in text else text


def alike(values, figures=10):
    """Numbers of a column with as many figures after the point as the one that needs most."""
    texts = [plain(v, figures, MOST_PLACES) for v in values]
    if any('e' in t or not math.isfinite(v) for t, v in zip(texts, values)):
        return texts
    places = max((len(t.partition('.')[2]) for t in texts), default=0)
    return [fixed(v, places) for v in values]


def count(number):
    """How many: 1,200."""
    return '{:,}'.format(number)


def counted(number, word):
    """'1 node', '1,200 nodes'; the two words stay on one line."""
    return '%s\u00a0%s' % (count(number), word if number == 1 else word + 's')


def length_words(metres, figures=7):
    """A length in m, or in km from 1000 m up."""
    if metres >= 1000:
        return plain(metres / 1000, figures) + '\u00a0km'
    return plain(metres, figures) + '\u00a0m'
