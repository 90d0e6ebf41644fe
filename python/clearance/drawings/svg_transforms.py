"""Affine maps of an SVG drawing, exact but for turns, and its transform attributes."""

import math
import re
from dataclasses import dataclass
from fractions import Fraction
from functools import lru_cache

from .curves import FINENESS
from .svg_numbers import SPACE, Fault, numbers

# One function, with the white space or the one comma before it; programs differ on more commas, and none stands in front.
TRANSFORM = re.compile(r"\s*(,?)\s*(matrix|translate|scale|rotate|skewX|skewY)\s*\(([^()]*)\)", re.ASCII)
# How many numbers a transform may have.
TRANSFORM_NUMBERS = {"matrix": (6,), "translate": (1, 2), "scale": (1, 2), "rotate": (1, 3), "skewX": (1,), "skewY": (1,)}
# More binary places than this are rounded off, to the second number: they come from turns, whose numbers are doubles.
PLACES_MOST, PLACES_KEPT = 800, 500
# A transform that makes a point larger than this, or an area smaller, is none that anybody draws.
GROWTH_MOST = 10**24
ZERO, ONE = Fraction(0), Fraction(1)


@dataclass(frozen=True)
class Affine:
    """The map x, y to a x + c y + e, b x + d y + f, all divided by q, in whole numbers."""

    a: int
    b: int
    c: int
    d: int
    e: int
    f: int
    q: int

    @staticmethod
    def of(*fractions):
        q = math.lcm(*(number.denominator for number in fractions))
        return Affine(*(number.numerator * (q // number.denominator) for number in fractions), q)

    def after(self, first):
        """This map behind another one."""
        if first is SAME:
            return self
        a, b = self.a * first.a + self.c * first.b, self.b * first.a + self.d * first.b
        c, d = self.a * first.c + self.c * first.d, self.b * first.c + self.d * first.d
        e, f = self.a * first.e + self.c * first.f + self.e * first.q, self.b * first.e + self.d * first.f + self.f * first.q
        return trimmed(a, b, c, d, e, f, self.q * first.q)

    def moved(self, x, y):
        """Where it puts a point, to the nearest 10^-6 as `taken` has it."""
        (xn, xd), (yn, yd) = x.as_integer_ratio(), y.as_integer_ratio()
        under = self.q * xd * yd
        across = self.a * xn * yd + self.c * yn * xd + self.e * xd * yd
        up = self.b * xn * yd + self.d * yn * xd + self.f * xd * yd
        return tuple(Fraction((2 * FINENESS * number + under) // (2 * under), FINENESS) for number in (across, up))

    def turned(self, x, y):
        """What it makes of a vector, in doubles."""
        (xn, xd), (yn, yd) = x.as_integer_ratio(), y.as_integer_ratio()
        under = self.q * xd * yd
        return (self.a * xn * yd + self.c * yn * xd) / under, (self.b * xn * yd + self.d * yn * xd) / under


def trimmed(*parts):
    """A map in lowest terms, or one as good as it where many turns on turns have made its numbers long."""
    *entries, q = parts
    if q.bit_length() > PLACES_KEPT:
        common = math.gcd(*parts)
        entries, q = [number // common for number in entries], q // common
        if q.bit_length() > PLACES_MOST:
            short = 1 << max(PLACES_KEPT, PLACES_KEPT + q.bit_length() - max(map(int.bit_length, entries)))
            entries, q = [(2 * number * short + q) // (2 * q) for number in entries], short
    return Affine(*entries, q)


def translation(x, y):
    return Affine.of(ONE, ZERO, ZERO, ONE, x, y)


SAME = translation(ZERO, ZERO)


def turn(degrees):
    """The cosine and the sine of degrees; exact for quarter turns."""
    quarters, rest = divmod(degrees, 90)
    if not rest:
        return ((ONE, ZERO), (ZERO, ONE), (-ONE, ZERO), (ZERO, -ONE))[quarters % 4]
    angle = math.radians(degrees % 360)
    return Fraction(math.cos(angle)), Fraction(math.sin(angle))


def tangent(degrees):
    return ONE if degrees % 180 == 45 else -ONE if degrees % 180 == 135 else Fraction(math.tan(math.radians(degrees % 180)))


def one_map(name, values):
    """The map of one function of a transform."""
    if name == "matrix":
        return Affine.of(*values)
    if name == "translate":
        return translation(values[0], values[1] if values[1:] else ZERO)
    if name == "scale":
        return Affine.of(values[0], ZERO, ZERO, values[-1], ZERO, ZERO)
    if name == "skewX":
        return Affine.of(ONE, ZERO, tangent(values[0]), ONE, ZERO, ZERO)
    if name == "skewY":
        return Affine.of(ONE, tangent(values[0]), ZERO, ONE, ZERO, ZERO)
    cos, sin = turn(values[0])
    turned = Affine.of(cos, sin, -sin, cos, ZERO, ZERO)
    if not values[1:]:
        return turned
    x, y = values[1:]
    return translation(x, y).after(turned).after(translation(-x, -y))


@lru_cache(maxsize=1000)
def transform_of(text):
    """The map of a transform attribute."""
    at, found = 0, SAME
    while SPACE.match(text, at).end() < len(text):
        match = TRANSFORM.match(text, at)
        values = numbers(match[3]) if match and not (match[1] and at == 0) else None
        if values is None or len(values) not in TRANSFORM_NUMBERS[match[2]]:
            raise Fault(f"its transform {text[:40]!r} is none that is read")
        found = placed(found, one_map(match[2], values))
        at = match.end()
    return found


def placed(outer, inner):
    """A map behind another one; Fault where nothing or next to nothing is left of an area, or too much comes of it."""
    if inner is SAME:
        return outer
    found = outer.after(inner)
    area = abs(found.a * found.d - found.b * found.c)
    if not area:
        raise Fault("a transform makes all of it flat (its determinant is 0)")
    largest = max(map(abs, (found.a, found.b, found.c, found.d, found.e, found.f)))
    if largest > GROWTH_MOST * found.q or area * GROWTH_MOST < found.q * found.q:
        raise Fault("its transforms make it too large or too small")
    return found
