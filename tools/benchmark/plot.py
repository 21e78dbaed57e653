"""The plot of docs/SPEED.md: how the time of a fit grows with n and with m."""
WIDTH, HEIGHT, LEFT, TOP, GAP = 320, 240, 60, 56, 70
SIDES = {"original": "#888888", "port": "#0060b0"}
DASHES = {"1": "", "6": ' stroke-dasharray="5 3"'}
PANELS = [("growth-n", "n wells (m = 100)", 1, 100, (12, 24, 48, 72, 96)), ("growth-m", "m nodes (n = 48)", 3, 104, (1, 25, 50, 75, 100))]


def text(x, y, words, anchor="middle"):
    return f'<text x="{x:.0f}" y="{y:.0f}" text-anchor="{anchor}">{words}</text>'


def stroke(x1, y1, x2, y2, colour, more=""):
    return f'<line x1="{x1:.1f}" y1="{y1:.1f}" x2="{x2:.1f}" y2="{y2:.1f}" stroke="{colour}"{more}/>'


def step(most):
    """The distance of the lines across: 1, 2 or 5 times a power of ten, five to ten of them."""
    size = 1
    while True:
        for nice in (1, 2, 5):
            if most / (nice * size) <= 8:
                return nice * size
        size *= 10


class Panel:
    def __init__(self, figures, index, most):
        self.kind, self.title, self.axis, self.span, self.marks = PANELS[index]
        self.figures, self.most = figures, most
        self.left = LEFT + index * (WIDTH + GAP)

    def x(self, count):
        return self.left + WIDTH * count / self.span

    def y(self, microseconds):
        return TOP + HEIGHT * (1 - microseconds / self.most)

    def frame(self):
        yield text(self.left + WIDTH / 2, TOP + HEIGHT + 36, self.title)
        yield text(self.left - 8, TOP - 12, "µs", "end")
        for mark in self.marks:
            yield text(self.x(mark), TOP + HEIGHT + 18, mark)
        height = step(self.most)
        for level in range(0, int(self.most) + 1, height):
            yield stroke(self.left, self.y(level), self.left + WIDTH, self.y(level), "#dddddd")
            yield text(self.left - 8, self.y(level) + 4, level, "end")

    def lines(self):
        for p, dash in DASHES.items():
            rows = [(int(key[self.axis]), value) for key, value in self.figures.items() if key[0] == self.kind and key[2] == p]
            for side, colour in SIDES.items():
                points = [(self.x(count), self.y(getattr(value, side))) for count, value in sorted(rows)]
                path = " ".join(f"{x:.1f},{y:.1f}" for x, y in points)
                yield f'<polyline points="{path}" fill="none" stroke="{colour}" stroke-width="2"{dash}/>'
                yield from (f'<circle cx="{x:.1f}" cy="{y:.1f}" r="2.5" fill="{colour}"/>' for x, y in points)


def legend():
    x = LEFT
    for side, colour in SIDES.items():
        for p, dash in DASHES.items():
            yield stroke(x, 14, x + 28, 14, colour, ' stroke-width="2"' + dash)
            yield text(x + 34, 18, f"{side}, p = {p}", "start")
            x += 150


def svg(figures):
    grown = [value for key, value in figures.items() if key[0].startswith("growth")]
    most = 1.05 * max(max(value.original, value.port) for value in grown)
    width, height = LEFT + 2 * WIDTH + GAP + 20, TOP + HEIGHT + 50
    head = f'<svg xmlns="http://www.w3.org/2000/svg" width="{width}" height="{height}" font-family="sans-serif" font-size="12">'
    body = [*legend(), *(line for index in range(2) for part in [Panel(figures, index, most)] for line in [*part.frame(), *part.lines()])]
    return "\n".join([head, '<rect width="100%" height="100%" fill="white"/>', *body, "</svg>"]) + "\n"
