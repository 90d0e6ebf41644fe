"""Random SVG shapes: their attributes, and the same as polylines in their own units."""

import math

from .plane import FLAT, bezier_line, ellipse_line


def told(number):
    """A number as it is written: four places at most."""
    return f"{number:.4f}".rstrip("0").rstrip(".") or "0"


def near(rng, span, low=0.0):
    """A number below a span, with the places that it is written with."""
    return round(rng.uniform(low, span), rng.choice((0, 1, 2, 4)))


class Pen:
    """Path data as it is written, and the polylines that it means."""

    def __init__(self, rng, span):
        self.rng, self.span = rng, span
        self.words, self.lines = [], []
        self.at, self.begin, self.control, self.before = (0.0, 0.0), (0.0, 0.0), (0.0, 0.0), ""

    def point(self):
        return near(self.rng, self.span), near(self.rng, self.span)

    def write(self, letter, numbers, points):
        """A command's numbers; where it is relative, the points among them from the current point."""
        small = self.rng.random() < 0.5
        numbers = list(map(told, numbers))
        for point in points:
            numbers += [told(a - b if small else a) for a, b in zip(point, self.at)]
        space = self.rng.choice((" ", ",", ", ", "\n"))
        self.words.append((letter.lower() if small else letter) + self.rng.choice(("", " ")) + space.join(numbers))
        # What was written is what counts: four places, on top of the current point where it is relative.
        taken = []
        for x, y in zip(numbers[-2 * len(points) :: 2], numbers[1 - 2 * len(points) :: 2]):
            taken.append(tuple(float(word) + (b if small else 0.0) for word, b in zip((x, y), self.at)))
        return taken

    def draw(self, line, letter, control=None):
        self.lines[-1] += line[1:]
        self.at, self.before = line[-1], letter
        self.control = control or self.at

    def move(self):
        (self.at,) = self.write("M", (), [self.point()])
        self.begin, self.control, self.before = self.at, self.at, "M"
        self.lines.append([self.at])

    def line(self):
        (end,) = self.write("L", (), [self.point()])
        self.draw([self.at, end], "L")

    def along(self):
        """A line along an axis."""
        axis, small, number = self.rng.randrange(2), self.rng.random() < 0.5, near(self.rng, self.span)
        self.words.append(("hv" if small else "HV")[axis] + told(number))
        value = float(told(number)) + (self.at[axis] if small else 0.0)
        self.draw([self.at, (value, self.at[1]) if axis == 0 else (self.at[0], value)], "L")

    def curve(self, letter):
        """A Bézier curve; S and T mirror the last control point where the command before is of their own kind."""
        count = {"C": 3, "S": 2, "Q": 2, "T": 1}[letter]
        points = self.write(letter, (), [self.point() for _ in range(count)])
        if letter in "ST":
            mirrors = self.before in ("CS" if letter == "S" else "QT")
            points.insert(0, tuple(2 * a - b for a, b in zip(self.at, self.control)) if mirrors else self.at)
        control = (self.at, *points)
        self.draw(bezier_line(control, FLAT * self.span), letter, control[-2])

    def arc(self):
        rx, ry, turn = (near(self.rng, self.span / 2, 1.0) for _ in range(3))
        turn = round(turn * self.rng.choice((0, 1, -3, 7)), 2)
        flags = self.rng.randrange(2), self.rng.randrange(2)
        (end,) = self.write("A", (rx, ry, turn, *flags), [self.point()])
        sizes = (float(told(rx)), float(told(ry)))
        self.draw(path_arc(self.at, end, sizes, math.radians(float(told(turn))), *flags), "A")

    def close(self):
        self.words.append(self.rng.choice("zZ"))
        self.draw([self.at, self.begin], "Z")
        if self.rng.random() < 0.5:
            self.move()
        else:  # what follows begins where the closed one began
            self.lines.append([self.at])


def path_arc(start, end, sizes, turn, large, sweep):
    """The arc of a path as a polyline, by its ends, as the standard's notes on elliptical arcs have it."""
    if start == end:
        return [start, end]
    cos, sin = math.cos(turn), math.sin(turn)
    half = [(a - b) / 2 for a, b in zip(start, end)]
    x, y = cos * half[0] + sin * half[1], -sin * half[0] + cos * half[1]
    grown = math.sqrt(max(1.0, (x / sizes[0]) ** 2 + (y / sizes[1]) ** 2))
    rx, ry = sizes[0] * grown, sizes[1] * grown
    square = (x / rx) ** 2 + (y / ry) ** 2
    root = math.sqrt(max(0.0, 1 / square - 1)) * (-1 if large == sweep else 1)
    # On the unit circle the centre is a quarter turn from the chord.
    cx, cy = root * y / ry, -root * x / rx
    first, last = math.atan2(y / ry - cy, x / rx - cx), math.atan2(-y / ry - cy, -x / rx - cx)
    angle = (last - first) % math.tau
    angle = angle if sweep else angle - math.tau
    centre = [(a + b) / 2 + c for a, b, c in zip(start, end, (cos * cx * rx - sin * cy * ry, sin * cx * rx + cos * cy * ry))]
    return ellipse_line(centre, (cos * rx, sin * rx), (-sin * ry, cos * ry), first, angle)


def path(rng, span):
    """Path data with all commands, and its polylines."""
    pen = Pen(rng, span)
    pen.move()
    for _ in range(rng.randint(2, 7)):
        choice = rng.random()
        if choice < 0.25:
            pen.line()
        elif choice < 0.4:
            pen.along()
        elif choice < 0.75:
            # S behind a quadratic, and T behind a cubic, are rare, and some readers refuse them.
            smooth = {"C": "S", "S": "S", "Q": "T", "T": "T"}.get(pen.before, "ST")
            pen.curve(rng.choice("CQ" + rng.choice(smooth)) if rng.random() < 0.9 else rng.choice("CSQT"))
        elif choice < 0.9:
            pen.arc()
        else:
            pen.close()
    return " ".join(pen.words), [line for line in pen.lines if len(set(line)) > 1]


def rounded_rect(x, y, width, height, rx, ry):
    """A rectangle whose corners are rounded by half of its sides at most; what is not told of rx and ry is as the other."""
    rx, ry = (rx if rx is not None else ry or 0.0), (ry if ry is not None else rx or 0.0)
    rx, ry = min(rx, width / 2), min(ry, height / 2)
    right, high = x + width, y + height
    if not rx or not ry:
        return [(x, y), (right, y), (right, high), (x, high), (x, y)]
    centres = (right - rx, y + ry), (right - rx, high - ry), (x + rx, high - ry), (x + rx, y + ry)
    line = []
    for turn, centre in enumerate(centres):
        line += ellipse_line(centre, (rx, 0), (0, ry), math.pi / 2 * (turn - 1), math.pi / 2, 45)
    return [*line, line[0]]
