"""Colours of the map: two palettes that run evenly from dark to light, or light to dark, so that nobody has to tell red from green.

The order of the classes can be read from lightness alone: in grey print, and by people who see no difference between some hues.
"""

# Control points, red, green and blue from 0 to 255, at even distances. Low levels are dark blue, as valleys are, high ones light yellow.
LEVELS = ((36, 44, 100), (38, 88, 148), (44, 130, 166), (88, 170, 166), (164, 208, 154), (253, 247, 205))
# A small deviation is light, a great one dark: what is dark is to be doubted.
DEVIATIONS = ((255, 246, 230), (252, 198, 140), (240, 150, 96), (205, 86, 72), (146, 36, 66), (78, 14, 58))


def between(palette, place):
    """The colour of a palette at a place from 0 to 1, by straight lines between the control points."""
    place = min(1.0, max(0.0, place)) * (len(palette) - 1)
    first = min(int(place), len(palette) - 2)
    part = place - first
    low, high = palette[first], palette[first + 1]
    return tuple(int(round(a + (b - a) * part)) for a, b in zip(low, high))


def class_colours(palette, count):
    """A colour for each of `count` classes; the middle of the palette where there is but one."""
    if count == 1:
        return [between(palette, 0.6)]
    return [between(palette, k / (count - 1)) for k in range(count)]


def hexadecimal(colour):
    """#rrggbb."""
    return '#%02x%02x%02x' % tuple(colour)


def lightness(colour):
    """L* of CIE 1976, 0 black to 100 white."""
    y = sum(w * linear(c) for w, c in zip((0.2126, 0.7152, 0.0722), colour))
    return 116 * y ** (1 / 3) - 16 if y > 0.008856 else 903.3 * y


def linear(part):
    """Light sent out for a part of an sRGB colour, 0 to 255, as a share of the most."""
    c = part / 255
    return c / 12.92 if c <= 0.04045 else ((c + 0.055) / 1.055) ** 2.4


def line_colour(colour):
    """A line that is seen on a colour: dark on light, light on dark."""
    return '#1c2430' if lightness(colour) > 52 else '#ffffff'
