"""Random DXF drawings with known places: blocks in blocks, mirrored, turned, uneven and arrayed, and all entities that make edges.

What is drawn is computed here from the numbers as they are written, apart from any reader.
"""

import math
import random

from .plane import after, all_moved, ellipse_line, moved
from .random_paths import near
from .random_svg import RandomDrawing

# The chords of a spline, besides some between each two knots.
STEPS = 240
UNITS = {1: 25.4, 2: 304.8, 4: 1.0, 5: 10.0, 6: 1000.0}


def tags(*pairs):
    return "".join(f"{code}\n{value}\n" for code, value in pairs)


def point_tags(code, point):
    return [(code, point[0]), (code + 10, point[1]), (code + 20, 0.0)]


class Maker:
    """Makes one drawing: each entity is its text and its polylines, in the units around it."""

    def __init__(self, rng):
        self.rng = rng
        self.blocks, self.handles = [], 0x100
        # GDAL 3.6 draws some arcs of more than half a turn elsewhere.
        self.large_arcs = rng.random() < 0.15
        self.known_only = self.large_arcs

    def entity(self, kind, *pairs, subclass):
        """An entity as DXF has it from release 2000 on."""
        self.handles += 1
        head = [(0, kind), (5, f"{self.handles:X}"), (100, "AcDbEntity"), (8, "0")]
        marks = [(100, name) for name in subclass.split()]
        return tags(*head, *marks, *pairs)

    def point(self, span):
        return near(self.rng, span, -span), near(self.rng, span, -span)

    def below(self):
        """Whether an entity is drawn seen from below, and the tags for that: its own x goes the other way then."""
        below = self.rng.random() < 0.25
        return (-1.0 if below else 1.0), ([(210, 0.0), (220, 0.0), (230, -1.0)] if below else [])

    # Entities.

    def line(self, span):
        start, end = self.point(span), self.point(span)
        text = self.entity("LINE", *point_tags(10, start), *point_tags(11, end), subclass="AcDbLine")
        return text, [[start, end]]

    def circle(self, span):
        centre, radius = self.point(span), near(self.rng, span / 2, 1.0)
        side, extrusion = self.below()
        text = self.entity("CIRCLE", *point_tags(10, centre), (40, radius), *extrusion, subclass="AcDbCircle")
        return text, [ellipse_line((side * centre[0], centre[1]), (side * radius, 0), (0, radius), 0, math.tau)]

    def arc(self, span):
        centre, radius = self.point(span), near(self.rng, span / 2, 1.0)
        first, last = round(self.rng.uniform(0, 360), 2), round(self.rng.uniform(0, 360), 2)
        side, extrusion = self.below()
        circle = [*point_tags(10, centre), (40, radius), *extrusion]
        text = self.entity("ARC", *circle, (100, "AcDbArc"), (50, first), (51, last), subclass="AcDbCircle")
        sweep = math.radians((last - first) % 360)
        return text, [ellipse_line((side * centre[0], centre[1]), (side * radius, 0), (0, radius), math.radians(first), sweep)]

    def ellipse(self, span):
        """The axes of an ellipse are told in the drawing's own x and y; seen from below, it goes round the other way."""
        centre, major = self.point(span), self.point(span / 2)
        major = major if math.hypot(*major) > 1 else (span / 3, 1.0)
        ratio = round(self.rng.uniform(0.2, 1.0), 3)
        first, sweep = round(self.rng.uniform(0, 6), 3), round(self.rng.uniform(0.3, 6), 3)
        if self.rng.random() < 0.4:
            first, sweep = 0.0, math.tau
        side, extrusion = self.below()
        pairs = [*point_tags(10, centre), *point_tags(11, major), *extrusion, (40, ratio), (41, first), (42, first + sweep)]
        minor = (-side * ratio * major[1], side * ratio * major[0])
        return self.entity("ELLIPSE", *pairs, subclass="AcDbEllipse"), [ellipse_line(centre, major, minor, first, sweep)]

    def corners(self, span):
        most = 3.0 if self.large_arcs else 1.0
        bulges = [self.rng.choice((0, 0, 1, -1)) * round(self.rng.uniform(0.05, most), 3) for _ in range(self.rng.randint(2, 6))]
        return [(self.point(span), bulge) for bulge in bulges], self.rng.random() < 0.5

    def light_polyline(self, span):
        corners, closed = self.corners(span)
        side, extrusion = self.below()
        pairs = [(90, len(corners)), (70, int(closed)), (43, 0.0)]
        for (x, y), bulge in corners:
            pairs += [(10, x), (20, y)] + ([(42, bulge)] if bulge else [])
        return self.entity("LWPOLYLINE", *pairs, *extrusion, subclass="AcDbPolyline"), [bulged(corners, closed, side)]

    def polyline(self, span):
        corners, closed = self.corners(span)
        side, extrusion = self.below()
        head = [(66, 1), *point_tags(10, (0.0, 0.0)), (70, int(closed)), *extrusion]
        text = self.entity("POLYLINE", *head, subclass="AcDb2dPolyline")
        for point, bulge in corners:
            pairs = [*point_tags(10, point), *([(42, bulge)] if bulge else [])]
            text += self.entity("VERTEX", *pairs, subclass="AcDbVertex AcDb2dVertex")
        return text + tags((0, "SEQEND"), (100, "AcDbEntity"), (8, "0")), [bulged(corners, closed, side)]

    def spline(self, span):
        """A spline through its first and last control points; its knots may be uneven or double, and it may have weights."""
        degree = self.rng.choice((2, 3, 3, 3, 4))
        points = [self.point(span) for _ in range(degree + 1 + self.rng.randint(0, 5))]
        inner = sorted(round(self.rng.uniform(0.05, 0.95), 2) for _ in range(len(points) - degree - 1))
        knots = [0.0] * (degree + 1) + inner + [1.0] * (degree + 1)
        weights = [round(self.rng.uniform(0.5, 2), 2) for _ in points] if self.rng.random() < 0.25 else []
        flags = 8 | (4 if weights else 0)
        pairs = [(70, flags), (71, degree), (72, len(knots)), (73, len(points)), (74, 0)]
        pairs += [(40, knot) for knot in knots] + [(41, weight) for weight in weights]
        for point in points:
            pairs += point_tags(10, point)
        return self.entity("SPLINE", *pairs, subclass="AcDbSpline"), [spline_line(degree, knots, points, weights or [1.0] * len(points))]

    def shape(self, span):
        kinds = (self.line, self.circle, self.arc, self.ellipse, self.light_polyline, self.light_polyline, self.polyline, self.spline)
        return self.rng.choice(kinds)(span)

    # Blocks.

    def block(self, span):
        """Lays up a block of shapes and of inserts of the blocks before it."""
        name, base = f"B{len(self.blocks)}", self.point(span / 3) if self.rng.random() < 0.5 else (0.0, 0.0)
        found = [self.shape(span) for _ in range(self.rng.randint(1, 3))]
        if self.blocks and self.rng.random() < 0.7:
            found.append(self.insert(span, nested=True))
            # GDAL 3.6 takes the base point off an insert before it turns its x the other way.
            self.known_only |= base != (0.0, 0.0) and "\n230\n-1.0\n" in found[-1][0]
        inside = "".join(text for text, _ in found)
        pairs = [(2, name), (70, 0), *point_tags(10, base), (3, name), (1, "")]
        text = self.entity("BLOCK", *pairs, subclass="AcDbBlockBegin") + inside + self.entity("ENDBLK", subclass="AcDbBlockEnd")
        lines = [line for _, lines in found for line in lines]
        self.blocks.append((name, text, all_moved((1, 0, 0, 1, -base[0], -base[1]), lines)))

    def insert(self, span, nested=False):
        name, _, lines = self.rng.choice(self.blocks)
        place, turn = self.point(span), round(self.rng.uniform(0, 360), 2) if self.rng.random() < 0.6 else 0.0
        x, y = self.scales(nested)
        side, extrusion = self.below()
        pairs = [(2, name), *point_tags(10, place), (41, x), (42, y), (43, 1.0), (50, turn)]
        columns, rows, across, up = 1, 1, 0.0, 0.0
        if self.rng.random() < 0.2:
            columns, rows = self.rng.randint(1, 3), self.rng.randint(1, 3)
            across, up = near(self.rng, span, 1.0), near(self.rng, span, 1.0)
            pairs += [(70, columns), (71, rows), (44, across), (45, up)]
        cos, sin = math.cos(math.radians(turn)), math.sin(math.radians(turn))
        found = []
        for column in range(columns):
            for row in range(rows):
                corner = moved((cos, sin, -sin, cos, *place), (column * across, row * up))
                whole = after((side, 0, 0, 1, 0, 0), after((cos, sin, -sin, cos, *corner), (x, 0, 0, y, 0, 0)))
                found += all_moved(whole, lines)
        return self.entity("INSERT", *pairs, *extrusion, subclass="AcDbBlockReference"), found

    def scales(self, nested):
        """Scales of an insert, mirrored ones too; an inner one is mostly even, for readers that cannot shear."""
        x = self.rng.choice((1, 1, -1)) * round(self.rng.uniform(0.4, 1.6), 3)
        even = self.rng.random() < (0.8 if nested else 0.6)
        return x, (self.rng.choice((1, 1, -1)) * abs(x) if even else round(self.rng.uniform(0.4, 1.6), 3))


def bulged(corners, closed, side):
    """The polyline of corners with bulges, each the tangent of a quarter of the angle of the arc to the next corner."""
    line = [corners[0][0]]
    for (start, bulge), (end, _) in zip(corners, corners[1:] + (corners[:1] if closed else [])):
        if bulge and start != end:
            away = (1 - bulge * bulge) / (4 * bulge)
            ux, uy = end[0] - start[0], end[1] - start[1]
            centre = (start[0] + end[0]) / 2 - away * uy, (start[1] + end[1]) / 2 + away * ux
            spoke = start[0] - centre[0], start[1] - centre[1]
            line += ellipse_line(centre, spoke, (-spoke[1], spoke[0]), 0.0, 4 * math.atan(bulge))[1:]
        else:
            line.append(end)
    return [(side * x, y) for x, y in line]


def spline_line(degree, knots, points, weights):
    """A spline as a polyline, by de Boor's way."""
    line, steps = [spline_point(degree, knots, points, weights, knots[degree])], 40 + STEPS // (len(points) - degree)
    for first, last in zip(knots[degree:], knots[degree + 1 : len(points) + 1]):
        parts = [first + (last - first) * step / steps for step in range(1, steps + 1)] if last > first else []
        line += [spline_point(degree, knots, points, weights, at) for at in parts]
    return line


def spline_point(degree, knots, points, weights, at):
    span = max(index for index in range(degree, len(points)) if knots[index] <= at and knots[index] < knots[index + 1])
    found = [(x * w, y * w, w) for (x, y), w in list(zip(points, weights))[span - degree : span + 1]]
    for level in range(1, degree + 1):
        for index in range(degree, level - 1, -1):
            low, high = knots[index + span - degree], knots[index + 1 + span - level]
            share = (at - low) / (high - low) if high > low else 0.0
            found[index] = tuple((1 - share) * a + share * b for a, b in zip(found[index - 1], found[index]))
    x, y, weight = found[degree]
    return x / weight, y / weight


def make(seed):
    """The drawing of a seed."""
    rng = random.Random(f"dxf {seed}")
    maker, code = Maker(rng), rng.choice((1, 4, 4, 4, 5))
    span = 60.0 / math.sqrt(UNITS[code])
    for _ in range(rng.choice((0, 1, 2, 3))):
        maker.block(span)
    found = [maker.shape(span) for _ in range(rng.randint(1, 4))]
    if maker.blocks:
        found += [maker.insert(span) for _ in range(rng.randint(1, 3))]
    rng.shuffle(found)
    text = tags((0, "SECTION"), (2, "HEADER"), (9, "$ACADVER"), (1, "AC1015"), (9, "$INSUNITS"), (70, code), (0, "ENDSEC"))
    text += tags((0, "SECTION"), (2, "BLOCKS")) + "".join(text for _, text, _ in maker.blocks) + tags((0, "ENDSEC"))
    text += tags((0, "SECTION"), (2, "ENTITIES")) + "".join(text for text, _ in found) + tags((0, "ENDSEC"), (0, "EOF"))
    unit = UNITS[code]
    lines = [line for _, lines in found for line in all_moved((unit, 0, 0, unit, 0, 0), lines)]
    return RandomDrawing(text.encode(), (), lines, known_only=maker.known_only)
