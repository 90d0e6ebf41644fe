"""Whether curves reach out of a viewport, which cuts off what is outside of it."""

import math

from .curves import Bezier

# Hundredths; a curve that is out by less is on the border.
BORDER = 0.001


class Window:
    """A parallelogram on the sheet by its corners, one after the other around it: how far each side is along its way outward."""

    def __init__(self, corners):
        points = [(float(x), float(y)) for x, y in corners]
        sides = list(zip(points, points[1:] + points[:1]))
        around = sum(ax * by - ay * bx for (ax, ay), (bx, by) in sides)
        self.sides = []
        for (ax, ay), (bx, by) in sides:
            size = math.copysign(math.hypot(bx - ax, by - ay), around)
            outward = (by - ay) / size, (ax - bx) / size
            self.sides.append((outward, outward[0] * ax + outward[1] * ay + BORDER))

    def holds(self, curves, box):
        """Whether all curves, of which this is a box, are inside of it."""
        return all(self.below(way, most, box) or all(farthest(curve, way) <= most for curve in curves) for way, most in self.sides)

    @staticmethod
    def below(way, most, box):
        """Whether a box is inside of one side."""
        return max(box[0] * way[0], box[2] * way[0]) + max(box[1] * way[1], box[3] * way[1]) <= most


def box_of(curves):
    """A box around curves, which may be larger than need be."""
    rows = [], []
    for curve in curves:
        if isinstance(curve, Bezier):
            for row, numbers in zip(rows, zip(*curve.points)):
                row += numbers
        else:
            for row, centre, u, v in zip(rows, curve.centre, curve.u, curve.v):
                row += (centre - math.hypot(u, v), centre + math.hypot(u, v))
    return tuple(float(end(row)) for end in (min, max) for row in rows)


def farthest(curve, way):
    """How far a curve goes in the direction of a unit vector."""
    if isinstance(curve, Bezier):
        return highest([float(x) * way[0] + float(y) * way[1] for x, y in curve.points])
    centre, u, v = (x * way[0] + y * way[1] for x, y in (curve.centre, curve.u, curve.v))
    top = (math.atan2(v, u) - min(curve.first, curve.first + curve.sweep)) % math.tau
    if top <= abs(curve.sweep):
        return centre + math.hypot(u, v)
    return centre + max(u * math.cos(angle) + v * math.sin(angle) for angle in (curve.first, curve.first + curve.sweep))


def highest(row):
    """The largest value on 0 to 1 of a polynomial of degree 3 at most by its Bernstein coefficients."""
    if max(row) <= max(row[0], row[-1]):
        return max(row)
    steps = [after - before for before, after in zip(row, row[1:])]
    if len(steps) == 2:
        roots = [steps[0] / (steps[0] - steps[1])]
    else:
        roots = quadratic(steps[0] - 2 * steps[1] + steps[2], 2 * (steps[1] - steps[0]), steps[0])
    return max(row[0], row[-1], *(value(row, root) for root in roots if 0 < root < 1))


def quadratic(a, b, c):
    """The real roots of a t^2 + b t + c."""
    if abs(a) < 1e-12 * (abs(b) + abs(c)):
        return [-c / b] if b else []
    inside = b * b - 4 * a * c
    if inside < 0:
        return []
    stable = -(b + math.copysign(math.sqrt(inside), b)) / 2
    return [stable / a] + ([c / stable] if stable else [])


def value(row, t):
    while len(row) > 1:
        row = [before + t * (after - before) for before, after in zip(row, row[1:])]
    return row[0]
