"""Upright boxes of edges, exact but for rounding outward to whole hundredths of a millimetre.

A cubic's coordinate with the control numbers b0, b1, b2, b3 is, with d0 = b1 - b0, d1 = b2 - b1, d2 = b3 - b2,
a = d0 - 2 d1 + d2 and h = d0 - d1,

    f(t) = b0 + 3 d0 t - 3 h t^2 + a t^3        f'(t) / 3 = d0 - 2 h t + a t^2        f''(t) / 6 = a t - h

On 0 <= t <= 1 it is least at an end, or where f' is 0 and f'' is not below 0; its greatest value is minus the least of -f.

Where a is not 0, f' is 0 at t = (h + s r) / a, with s = 1 or -1, D = h^2 - a d0 and r the root of D, and nowhere if D < 0. There
f'' / 6 = s r, so s = 1 is enough; and a t^2 = 2 h t - d0, which put into f twice gives f(t) = (a b0 + h d0 - 2 D t) / a, and so

    f(t) = (a^2 b0 + a h d0 - 2 h D - 2 D r) / a^2        where 2 D r is the root of 4 D^3

Where a is 0 and h is not, it is at t = d0 / (2 h), and f(t) = b0 + 3 d0^2 / (4 h). Where both are 0, f' is the same all over.

Every number in this is whole but the roots, and floor((p + q) / c) = floor((p + floor(q)) / c) for whole p and c > 0, whatever q is.
"""

from math import isqrt

from .job import is_line


def edge_box(edge):
    """The smallest box of whole numbers around an edge: least x, least y, greatest x, greatest y."""
    range_of = line_range if is_line(edge) else cubic_range
    (left, right), (low, high) = range_of(edge[0::2]), range_of(edge[1::2])
    return left, low, right, high


def outline_box(edges):
    """The same around one or more edges."""
    lefts, lows, rights, highs = zip(*map(edge_box, edges))
    return min(lefts), min(lows), max(rights), max(highs)


def line_range(ends):
    return min(ends), max(ends)


def cubic_range(controls):
    """The least value of a cubic's coordinate rounded down, and the greatest rounded up."""
    mirrored = tuple(-control for control in controls)
    return least_floor(controls), -least_floor(mirrored)


def least_floor(controls):
    """The least value of a cubic's coordinate, rounded down."""
    return min(controls[0], controls[3], *turning_floor(controls))


def turning_floor(controls):
    """The value, rounded down, where the coordinate turns from falling to rising, if it does."""
    b0, b1, b2, b3 = controls
    d0, d1, d2 = b1 - b0, b2 - b1, b3 - b2
    a, h = d0 - 2 * d1 + d2, d0 - d1
    if a == 0:
        return [(4 * h * b0 + 3 * d0 * d0) // (4 * h)] if h != 0 and 0 <= d0 * h <= 2 * h * h else []
    d = h * h - a * d0
    if d < 0 or not is_on_edge(a, h, d):
        return []
    return [(a * a * b0 + a * h * d0 - 2 * h * d + root_floor(4 * d**3, -1)) // (a * a)]


def is_on_edge(a, h, d):
    """Whether t = (h + root(d)) / a lies from 0 to 1."""
    side = 1 if a > 0 else -1
    least = side * h + root_floor(d, side)
    greatest = side * h - root_floor(d, -side)
    return least >= 0 and greatest <= abs(a)


def root_floor(number, sign):
    """The root of a number, or with the sign -1 its negative, rounded down."""
    root = isqrt(number)
    return root if sign > 0 else -root - (root * root < number)
