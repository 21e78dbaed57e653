"""What the calls are drawn from: numbers, points, variograms and bases, usual ones and edges."""
import random

COLUMNS = {1: 1, 2: 3, 3: 6, 4: 1}
SPANS = {"grid": 20.0, "survey": 8e3, "crowded": 1e-3, "far": 10.0}


def flat(points):
    return [x for point in points for x in point]


class Draw(random.Random):
    # what a variogram's model is drawn from: those that the first stored calls have
    models = [1, 1, 4]

    def edge(self):
        """A number that is huge, tiny, subnormal or a signed zero."""
        size = self.choice([0.0, 5e-324, 2.0**-1030, 2.0**-1022, 1e-200, 2.0**-52, 1e150, 1e300, 1.7e308])
        return self.choice([size, -size])

    def measured(self):
        return self.edge() if self.randrange(40) == 0 else round(self.uniform(-50, 150), self.randrange(0, 6))

    def measures(self, count):
        return [self.measured() for _ in range(count)]

    def style(self):
        return self.choice(["grid", "grid", "survey", "survey", "crowded", "far"])

    def place(self, axes, style):
        """A point: on a grid, of seven figures, crowded, or far out."""
        if style == "grid":
            return [float(self.randrange(-20, 21)) for _ in range(axes)]
        if style == "survey":
            return [round(self.uniform(4.70e6, 4.71e6), 2) for _ in range(axes)]
        if style == "crowded":
            return [self.uniform(0, 1e-3) for _ in range(axes)]
        return [self.edge() if self.randrange(3) == 0 else self.uniform(-10, 10) for _ in range(axes)]

    def places(self, n, axes, style):
        """n points, seldom one of them twice."""
        points = [self.place(axes, style) for _ in range(n)]
        if n > 1 and self.randrange(12) == 0:
            points[self.randrange(n)] = list(self.choice(points))
        return points

    def targets(self, points, m, axes, style):
        """m points, some of them on the others."""
        nodes = self.places(m, axes, style)
        return [list(self.choice(points)) if points and self.randrange(8) == 0 else node for node in nodes]

    def variogram(self, style):
        """Model, nugget, sill, range: nugget above sill and ranges of zero, below zero and at the edges among them."""
        odd = self.randrange(10) == 0
        sill = self.choice([0.0, -1.0, self.edge()]) if odd else self.choice([1.0, 2.5, self.uniform(0, 30)])
        nugget = self.choice([sill + 1, -0.5, self.edge()]) if odd else self.choice([0.0, 0.0, 0.1, self.uniform(0, 1), sill + 1])
        span = SPANS[style] * self.uniform(0.1, 2)
        if self.randrange(10) == 0:
            span = self.choice([0.0, -0.0, -span, self.edge()])
        return self.choice(self.models), nugget, sill, span

    def with_models(self, models):
        """The same draw with other models."""
        self.models = models
        return self

    def count(self, most, few):
        """Mostly at most `few`, sometimes up to `most`."""
        return self.randrange(0, few + 1) if self.randrange(4) else self.randrange(0, most + 1)

    def bases(self, n):
        """Codes whose columns number at most n and 12: mostly one surface beside external columns, which can be told apart, else any."""
        codes, left = [], min(n, 12)
        surface = self.choice([1, 2, 2, 3])
        mixed = [surface] + [4] * self.randrange(0, 4) if self.randrange(5) else self.choices([1, 2, 3, 4], k=self.randrange(1, 5))
        for code in self.sample(mixed, len(mixed)):
            if COLUMNS[code] <= left:
                codes.append(code)
                left -= COLUMNS[code]
        return codes or [1]

    def regularisation(self):
        return self.choice([0.0, -0.0, 1e-10, 1e-10, 1e-3, 2.0**-52, 2.0**-53, 1e6])
