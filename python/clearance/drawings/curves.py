"""The curves of a drawing, in hundredths of a millimetre: Béziers, arcs of ellipses, and splines.

The numbers of a drawing are taken to the nearest 10^-6 of a hundredth, which takes the noise of binary floating point off
them: 12.34 mm is 1234 exactly, whatever was computed on the way. From there on lines, quadratics and cubics are exact.
"""

import math
from dataclasses import dataclass
from fractions import Fraction

# The parts of a hundredth that a drawing's numbers are taken to.
FINENESS = 10**6
# No number of a drawing is larger, in hundredths: 100,000 km.
LARGEST = 10**13


# An arc that is nowhere farther than this from its chord is taken for the chord, and that goes into W. Its centre would be
# so far off that double arithmetic loses more.
FLAT = 0.01


class Unusable(Exception):
    """A drawing that no sheet can be made of; the message says why, and `place` is a line and a column, or zeros."""

    def __init__(self, message, line=0, column=0):
        super().__init__(message)
        self.place = (line, column)
        self.all = (self,)


class Findings(Unusable):
    """Several reasons at once, in the order of the drawing."""

    def __init__(self, reasons):
        super().__init__(str(reasons[0]), *reasons[0].place)
        self.all = tuple(reasons)


def taken(number):
    """A number to the nearest 10^-6, halves upward."""
    try:
        exact = Fraction(number)
    except (ValueError, OverflowError) as error:
        raise Unusable(f"there is a number in it that is none: {number}") from error
    if abs(exact) > LARGEST:
        power = len(str(abs(exact.numerator))) - len(str(exact.denominator)) - 2
        raise Unusable(f"there is a length in it of about 10^{power} mm, and {LARGEST // 100:,} mm is the most that is read")
    return Fraction(math.floor(exact * FINENESS + Fraction(1, 2)), FINENESS)


def whole(number):
    """The nearest whole number of one that has been taken, halves upward."""
    return math.floor(taken(number) + Fraction(1, 2))


def rounded(point):
    return tuple(whole(number) for number in point)


def floats(point):
    return float(point[0]), float(point[1])


@dataclass(frozen=True)
class Bezier:
    """A line, a quadratic or a cubic by its two, three or four control points, exact.

    `doubt` is how far it may be, both ways, from what the drawing has: a line stands for an arc that is as good as straight.
    """

    points: tuple
    doubt: float = 0.0


@dataclass(frozen=True)
class Arc:
    """The points centre + u cos(a) + v sin(a) for a from `first` to `first` + `sweep`: a circle's or an ellipse's arc.

    `start` and `end` are its ends where the drawing states them itself. `doubt` is how far the numbers here may put a
    point from where the drawing puts it, beyond what `slack` of the fitting allows for.
    """

    centre: tuple
    u: tuple
    v: tuple
    first: float
    sweep: float
    start: tuple = None
    end: tuple = None
    doubt: float = 0.0

    def point(self, angle):
        cos, sin = math.cos(angle), math.sin(angle)
        return tuple(c + u * cos + v * sin for c, u, v in zip(self.centre, self.u, self.v))

    def forward(self, angle):
        """The derivative by the angle."""
        cos, sin = math.cos(angle), math.sin(angle)
        return tuple(v * cos - u * sin for u, v in zip(self.u, self.v))

    def is_circle(self):
        """Whether u and v are as long as each other and upright, as far as doubles tell."""
        (ux, uy), (vx, vy) = self.u, self.v
        size = math.hypot(ux, uy)
        return abs(size - math.hypot(vx, vy)) <= 2**-48 * size and abs(ux * vx + uy * vy) <= 2**-48 * size * size

    def longest(self):
        """The larger semi-axis: the most that the linear map (1, 0) to u, (0, 1) to v stretches a vector."""
        (ux, uy), (vx, vy) = self.u, self.v
        return (math.hypot(ux + vy, uy - vx) + math.hypot(ux - vy, uy + vx)) / 2


@dataclass(frozen=True)
class Spline:
    """A B-spline by its degree, its knots, its control points, and its weights, all 1 where it is not rational."""

    degree: int
    knots: tuple
    points: tuple
    weights: tuple

    def is_rational(self):
        return any(weight != self.weights[0] for weight in self.weights)
