"""A piece of an outline: what stands for a part of a drawing's curve before it is rounded to whole hundredths.

A piece has `control`, its two or four control points, and `bound(edge)`: a number W such that every point of the drawing's
part is within W of the rounded edge and every point of the edge within W of that part. Nothing is sampled; each bound is
derived where it is computed: for lines, quadratics and cubics here, for arcs in arc_fitting.py, for splines in
spline_fitting.py.
"""

import math
from dataclasses import dataclass
from fractions import Fraction

from . import bernstein
from .curves import FINENESS

# No drawing of more edges than this is gone on with: 64 sheets of 64 edges.
PIECES_MOST = 4096
# How often the interval is halved for a bound. Measured: a further time makes it hardly smaller.
HALVINGS = 4


def root_up(squared):
    """The smallest number of whole 10^-6 whose square is not below this one."""
    scaled = math.ceil(squared * FINENESS**2)
    root = math.isqrt(scaled)
    return Fraction(root + (root * root < scaled), FINENESS)


def up(number):
    """A double, rounded up to whole 10^-6."""
    return Fraction(math.ceil(Fraction(number) * FINENESS), FINENESS)


def longest_squared(rows, times):
    """A bound on the squared length of a polynomial vector, by its coefficients (see bernstein.py) on 2^times parts."""
    return max(x * x + y * y for xs, ys in bernstein.halved(rows, times) for x, y in zip(xs, ys))


def moves(edge, control):
    """The rows of x and of y by which an edge's control points are off a piece's."""
    return [[after - before for after, before in zip(*numbers)] for numbers in zip(zip(*edge), zip(*control))]


@dataclass(frozen=True)
class BezierPiece:
    """A line or a cubic, exact. At a parameter t an edge is off it by the mean of the control points' moves that t gives."""

    control: tuple
    doubt: float = 0.0

    def bound(self, edge):
        rows = moves(edge, self.control)
        if not any(number for row in rows for number in row):
            return up(self.doubt)
        return root_up(longest_squared(rows, HALVINGS if len(edge) > 2 else 0)) + up(self.doubt)


def elevated(points):
    """A quadratic as a cubic, exactly: the inner control points are two thirds of the way to the quadratic's one."""
    if len(points) != 3:
        return points
    first, middle, last = points
    return (first, *(tuple((a + 2 * b) / 3 for a, b in zip(end, middle)) for end in (first, last)), last)
