"""Polylines in the plane: affine maps, curves made polylines, and the distance of two sets of them.

A point is a pair of numbers, a polyline a list of points, a map the six numbers a, b, c, d, e, f of SVG's matrix.
"""

import math
from collections import defaultdict

IDENTITY = (1.0, 0.0, 0.0, 1.0, 0.0, 0.0)
# Curves are followed this close, as a part of the drawing's size; and points are taken so many to the size.
FLAT, POINTS = 5e-5, 200
POINTS_MOST = 10_000


def after(outer, inner):
    """The map that is `inner` first and then `outer`."""
    a, b, c, d, e, f = inner
    (p, q), (r, s) = turned(outer, (a, b)), turned(outer, (c, d))
    return (p, q, r, s, *moved(outer, (e, f)))


def turned(place, point):
    x, y = point
    return place[0] * x + place[2] * y, place[1] * x + place[3] * y


def moved(place, point):
    x, y = turned(place, point)
    return x + place[4], y + place[5]


def all_moved(place, lines):
    return [[moved(place, point) for point in line] for line in lines]


def bezier_line(control, flat):
    """A Bézier curve of any degree as a polyline that is no farther than `flat` from it."""
    degree = len(control) - 1
    bends = (math.hypot(a[0] - 2 * b[0] + c[0], a[1] - 2 * b[1] + c[1]) for a, b, c in zip(control, control[1:], control[2:]))
    # The second derivative is at most degree (degree - 1) bends, and a chord over a step h is off by h^2 / 8 of that at most.
    steps = math.ceil(math.sqrt(degree * (degree - 1) * max(bends, default=0.0) / (8 * flat)))
    steps = max(1, min(1000, steps))
    return [bezier_point(control, step / steps) for step in range(steps + 1)]


def bezier_point(control, at):
    """The point of a Bézier curve at a parameter."""
    points = list(control)
    while len(points) > 1:
        points = [((1 - at) * a[0] + at * b[0], (1 - at) * a[1] + at * b[1]) for a, b in zip(points, points[1:])]
    return points[0]


def ellipse_line(centre, u, v, first, sweep, steps=180):
    """The arc centre + u cos t + v sin t as a polyline; chords of two degrees are 1.5e-4 of the radius off."""
    angles = [first + sweep * step / steps for step in range(steps + 1)]
    return [tuple(c + math.cos(t) * a + math.sin(t) * b for c, a, b in zip(centre, u, v)) for t in angles]


def box_of(lines):
    """Left, low, right and high of all points; nothing where there are none."""
    points = [point for line in lines for point in line]
    if not points:
        return None
    xs, ys = zip(*points)
    return min(xs), min(ys), max(xs), max(ys)


def size_of(lines):
    """The length of the diagonal of the box."""
    box = box_of(lines)
    return math.hypot(box[2] - box[0], box[3] - box[1]) if box else 0.0


def points_along(lines, size):
    """Points on all polylines: their corners, and others so close that nothing longer than a step goes unseen."""
    length = sum(math.dist(a, b) for line in lines for a, b in zip(line, line[1:]))
    step = max(size / POINTS, length / POINTS_MOST) or 1.0
    for line in lines:
        yield line[0]
        for a, b in zip(line, line[1:]):
            # From half a step on at least the middle: a chord between two corners that are right may be wrong.
            steps = math.dist(a, b) / step
            parts = max(math.ceil(steps), 2 if steps > 0.5 else 1)
            for part in range(1, parts):
                at = part / parts
                yield a[0] + at * (b[0] - a[0]), a[1] + at * (b[1] - a[1])
            yield b


def from_segment(point, start, end):
    """The distance of a point from a segment."""
    ux, uy = end[0] - start[0], end[1] - start[1]
    square = ux * ux + uy * uy
    at = ((point[0] - start[0]) * ux + (point[1] - start[1]) * uy) / square if square else 0.0
    at = min(1.0, max(0.0, at))
    return math.hypot(point[0] - start[0] - at * ux, point[1] - start[1] - at * uy)


class Near:
    """Segments laid in square cells, to ask whether one is near a point."""

    def __init__(self, lines, size, near):
        self.near = near
        self.side = max(near, size / POINTS) or 1.0
        self.segments = [(a, b) for line in lines for a, b in zip(line, line[1:] or line)]
        self.cells = defaultdict(set)
        for segment in self.segments:
            self.lay(segment)

    def lay(self, segment):
        """In all cells that a point near it may be in: those of the boxes around its parts, each no longer than a cell's side."""
        (x, y), (right, high) = segment
        parts = max(1, math.ceil(max(abs(right - x), abs(high - y)) / self.side))
        dx, dy = (right - x) / parts, (high - y) / parts
        for part in range(parts):
            xs, ys = (x + part * dx, x + (part + 1) * dx), (y + part * dy, y + (part + 1) * dy)
            columns = range(self.cell(min(xs) - self.near), self.cell(max(xs) + self.near) + 1)
            for row in range(self.cell(min(ys) - self.near), self.cell(max(ys) + self.near) + 1):
                for column in columns:
                    self.cells[column, row].add(segment)

    def cell(self, number):
        return math.floor(number / self.side)

    def holds(self, point):
        """Whether a segment is near a point."""
        cell = self.cells.get((math.floor(point[0] / self.side), math.floor(point[1] / self.side)), ())
        return any(from_segment(point, *segment) <= self.near for segment in cell)

    def distance(self, point):
        return min((from_segment(point, *segment) for segment in self.segments), default=math.inf)


FAR_MOST = 20


def farthest(lines, others, size, near):
    """How far the farthest point found on lines is from others, and that point; nothing where all are within `near`.

    Of many that are farther only some are measured, evenly from all.
    """
    there = Near(others, size, near)
    far = [point for point in points_along(lines, size) if not there.holds(point)]
    if not far:
        return None
    chosen = far[:: max(1, len(far) // FAR_MOST)]
    return max((there.distance(point), point) for point in chosen)
