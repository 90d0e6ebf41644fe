"""Cubics for B-splines, rational ones too, of any degree.

On each of its spans, between two knots, a spline is a polynomial, or for a rational one a quotient of polynomials N / w. A
piece from a to b is replaced by a cubic H that has the curve's ends and the directions of its tangents there. H is gone
along at a pace of its own: f is a cubic from 0 to 1 whose coefficients 0, p/3, 1 - q/3, 1 do not go down, so f does not go
down either (its derivative's coefficients are their differences, times three), and the points C(t) and H(f(t)) are pairs,
of all points of both. On each span within the piece H(f) w - N is a polynomial; with its coefficients, and the least of w,
the distance of the pairs is bounded (bernstein.py). The same is done with the rounded edge in place of H.

The pieces are taken as long as bisection finds them to stay within what is asked, and end at every corner.
"""

import math
from dataclasses import dataclass, replace
from fractions import Fraction

from . import bernstein
from .curves import Spline, Unusable
from .pieces import PIECES_MOST, BezierPiece, elevated, up

# DXF has no splines of a higher degree.
DEGREE_MOST = 11
HALVINGS = 3
BISECTIONS = 12
# Tangents whose directions differ by more make a corner.
CORNER = 1e-9


@dataclass(frozen=True)
class Span:
    """What a spline is between two knots: the coefficients of x w, y w and w."""

    start: object
    end: object
    rows: tuple


def blossom(values, knots, degree, span, arguments):
    """The value of a span's polar form: de Boor's scheme with an argument of its own at each step.

    The arguments lie in the span, so every step is a mean of two numbers: nothing grows in it.
    """
    row = list(values[span - degree : span + 1])
    for step, argument in enumerate(arguments, 1):
        for place in range(degree, step - 1, -1):
            low = span - degree + place
            share = (argument - knots[low]) / (knots[low + degree - step + 1] - knots[low])
            row[place] = row[place - 1] + (row[place] - row[place - 1]) * share
    return row[degree]


def spans(spline, number):
    """The spans that are not empty, in numbers of the type `number`."""
    degree, knots = spline.degree, [number(knot) for knot in spline.knots]
    weights = [number(weight) for weight in spline.weights]
    rows = [[number(point[axis]) * weight for point, weight in zip(spline.points, weights)] for axis in (0, 1)]
    found = []
    for index in range(degree, len(spline.points)):
        low, high = knots[index], knots[index + 1]
        if low < high:
            ends = [[low] * (degree - j) + [high] * j for j in range(degree + 1)]
            parts = tuple([blossom(row, knots, degree, index, end) for end in ends] for row in (*rows, weights))
            found.append(Span(low, high, parts))
    return found


def checked(spline):
    """Raises Unusable where the numbers make no spline."""
    count, degree = len(spline.points), spline.degree
    numbers = [*spline.knots, *spline.weights]
    if not all(math.isfinite(number) for number in numbers):
        raise Unusable("a spline has a knot or a weight that is no number")
    if not 1 <= degree < count or len(spline.knots) != count + degree + 1 or len(spline.weights) != count:
        has = f"{count} control points, {len(spline.knots)} knots and {len(spline.weights)} weights"
        raise Unusable(f"a spline of degree {degree} has {has}")
    if any(high < low for low, high in zip(spline.knots, spline.knots[1:])):
        raise Unusable("a spline's knots go down")
    if not spline.knots[degree] < spline.knots[count]:
        raise Unusable("a spline has no span between its knots")
    if min(spline.weights) <= 0:
        raise Unusable("a spline has a weight that is not above 0")
    if degree > DEGREE_MOST:
        raise Unusable(f"a spline has the degree {degree}, and {DEGREE_MOST} is the highest that is read")


def spline_pieces(spline, within):
    """The pieces of a spline: its own spans where they are lines or cubics and no more than the cubics that follow it."""
    checked(spline)
    points, knots = spline.points, spline.knots
    if spline.degree == 1:
        # Weights move the points along the lines only.
        return [BezierPiece(points[i - 1 : i + 1]) for i in range(1, len(points)) if knots[i] < knots[i + 1]]
    followed = following(spline, within)
    if spline.degree > 3 or spline.is_rational():
        return followed
    own = spans(Spline(spline.degree, knots, points, (1,) * len(points)), Fraction)
    if len(own) > len(followed):
        return followed
    return [BezierPiece(elevated(tuple(zip(*span.rows[:2])))) for span in own]


def following(spline, within):
    """The pieces of bisection."""
    found, doubt = [], slack(spline)
    for group in smooth_groups(spans(spline, float)):
        start = group[0].start
        while start < group[-1].end:
            end = farthest(group, start, within, doubt)
            found.append(SplinePiece(tuple(cut(group, start, end)), fit(group, start, end, within), doubt))
            start = end
            if len(found) > PIECES_MOST:
                raise Unusable(f"a spline needs more than {PIECES_MOST:,} cubics")
    return found


def slack(spline):
    """What double arithmetic may put a bound off by.

    From the control points to a coefficient there are fewer than 64 (degree + 10) steps one after another, each within 2^-52
    of the largest number, a coordinate times a weight; the result is divided by the least weight.
    """
    largest = max(abs(float(number)) for point in spline.points for number in point)
    spread = max(spline.weights) / min(spline.weights)
    return 2.0**-52 * 64 * (spline.degree + 10) * largest * spread


def place(rows, index):
    """The curve's control point of this index."""
    xs, ys, ws = rows
    return xs[index] / ws[index], ys[index] / ws[index]


def smooth_groups(all_spans):
    """The spans in groups: a new one begins at each corner."""
    groups = [[all_spans[0]]]
    for before, after in zip(all_spans, all_spans[1:]):
        if is_corner(before.rows, after.rows):
            groups.append([])
        groups[-1].append(after)
    return groups


def is_corner(before, after):
    """Whether a curve breaks or turns from one span to the next; a tangent without length counts as a turn."""
    end, start = place(before, -1), place(after, 0)
    size = 1 + max(abs(number) for number in end)
    if math.hypot(end[0] - start[0], end[1] - start[1]) > CORNER * size:
        return True
    (ax, ay), (bx, by) = toward(before, -1, -2), toward(after, 1, 0)
    least = CORNER * math.hypot(ax, ay) * math.hypot(bx, by)
    return ax * bx + ay * by <= least or abs(ax * by - ay * bx) > least


def toward(rows, head, tail):
    (ax, ay), (bx, by) = place(rows, head), place(rows, tail)
    return ax - bx, ay - by


def cut(group, start, end):
    """The spans from start to end, the first and the last shortened."""
    found = []
    for span in group:
        low, high = max(span.start, start), min(span.end, end)
        if low < high:
            length = span.end - span.start
            parts = (low - span.start) / length, (high - span.start) / length
            found.append(Span(low, high, tuple(bernstein.between(row, *parts) for row in span.rows)))
    return found


@dataclass(frozen=True)
class Follower:
    """A cubic for a curve from start to end: its control points, and the coefficients of its pace, None where that is even."""

    control: tuple
    start: float
    end: float
    pace: tuple = None

    def on(self, part):
        """The rows of x and y of the cubic on a part of the curve, at its pace."""
        length = self.end - self.start
        ends = (part.start - self.start) / length, (part.end - self.start) / length
        axes = [[point[axis] for point in self.control] for axis in (0, 1)]
        if self.pace is None:
            return [bernstein.between(row, *ends) for row in axes]
        far = bernstein.between(self.pace, *ends)
        near = [1 - value for value in far]
        near_two, far_two = bernstein.product(near, near), bernstein.product(far, far)
        shares = [bernstein.product(*pair) for pair in ((near_two, near), (near_two, far), (near, far_two), (far_two, far))]
        return [[sum(c * x * y for c, x, y in zip((1, 3, 3, 1), row, column)) for column in zip(*shares)] for row in axes]

    def off(self, part, times):
        """A bound on the distance of its pairs on a part of the curve."""
        xs, ys, ws = part.rows
        x, y = self.on(part)
        ones = [1.0] * len(x)
        rows = [[a - b for a, b in zip(bernstein.product(mine, ws), bernstein.product(ones, its))] for mine, its in ((x, xs), (y, ys))]
        parts = bernstein.halved([*rows, bernstein.product(ones, ws)], times)
        return max(max(math.hypot(a, b) for a, b in zip(dx, dy)) / min(w) for dx, dy, w in parts)

    def off_middle(self, part):
        """The distance of the pair at a part's middle."""
        x, y, xs, ys, ws = (bernstein.halves(row)[0][-1] for row in (*self.on(part), *part.rows))
        return math.hypot(x - xs / ws, y - ys / ws)

    def stays(self, parts, within):
        """Whether it stays within so much: what one point shows first, then the quick bound, then the closer one."""
        if any(self.off_middle(part) > within for part in parts):
            return False
        return all(self.off(part, 0) <= within or self.off(part, HALVINGS) <= within for part in parts)


def hermite(parts, start, end):
    """The cubic with the ends and the end derivatives of the curve, at an even pace."""
    first, last = parts[0], parts[-1]
    degree = len(first.rows[0]) - 1
    out, back = toward(first.rows, 1, 0), toward(last.rows, -1, -2)
    forth = (end - start) / 3 * degree / (first.end - first.start) * first.rows[2][1] / first.rows[2][0]
    home = (end - start) / 3 * degree / (last.end - last.start) * last.rows[2][-2] / last.rows[2][-1]
    p, q = place(first.rows, 0), place(last.rows, -1)
    control = p, (p[0] + forth * out[0], p[1] + forth * out[1]), (q[0] - home * back[0], q[1] - home * back[1]), q
    return Follower(control, start, end)


def through_middle(even, parts):
    """The cubic with other handles that goes through the curve's point in the middle of its pace, or None.

    With handles a and b times as long its pace has the slopes 1/a and 1/b at its ends: then the derivatives agree there too.
    Its middle is (p + q) / 2 + 3/8 (a d - b e), d and e the even one's handles, which gives a and b. Where the pace's
    middle is they tell in turn.
    """
    (p, p_out, q_in, q), middle, pace = even.control, 0.5, None
    (dx, dy), (ex, ey) = ((b[0] - a[0], b[1] - a[1]) for a, b in ((p, p_out), (q_in, q)))
    across = dx * ey - dy * ex
    for _ in range(3):
        x, y = curve_point(parts, even.start + (even.end - even.start) * middle)
        x, y = 8 / 3 * (x - (p[0] + q[0]) / 2), 8 / 3 * (y - (p[1] + q[1]) / 2)
        if across == 0 or (x * ey - y * ex) / across <= 0 or (x * dy - y * dx) / across <= 0:
            return None
        a, b = (x * ey - y * ex) / across, (x * dy - y * dx) / across
        if 1 / a + 1 / b > 3:
            return None
        pace = 0.0, 1 / (3 * a), 1 - 1 / (3 * b), 1.0
        middle = where_half(pace)
    control = p, (p[0] + a * dx, p[1] + a * dy), (q[0] - b * ex, q[1] - b * ey), q
    return Follower(control, even.start, even.end, pace)


def where_half(pace):
    """Where a pace is 1/2, about."""
    low, high = 0.0, 1.0
    for _ in range(30):
        middle = (low + high) / 2
        low, high = (middle, high) if bernstein.split(pace, middle)[0][-1] < 0.5 else (low, middle)
    return low


def curve_point(parts, parameter):
    part = next((part for part in parts if parameter <= part.end), parts[-1])
    at = (parameter - part.start) / (part.end - part.start)
    x, y, w = (bernstein.split(row, at)[0][-1] for row in part.rows)
    return x / w, y / w


def fit(group, start, end, within):
    """A cubic from start to end that stays within so much, or None."""
    parts = cut(group, start, end)
    even = hermite(parts, start, end)
    if even.stays(parts, within):
        return even
    other = through_middle(even, parts)
    return other if other is not None and other.stays(parts, within) else None


def farthest(group, start, within, doubt):
    """The end of the longest piece from start on that bisection finds: among the knots first, then between two of them."""
    ends = [span.end for span in group if span.end > start]
    good, high = 0, 1
    while high <= len(ends) and fit(group, start, ends[high - 1], within):
        good, high = high, 2 * high
    high = min(high, len(ends) + 1)
    while high - good > 1:
        middle = (good + high) // 2
        good, high = (middle, high) if fit(group, start, ends[middle - 1], within) else (good, middle)
    if good == len(ends):
        return ends[-1]
    low, high = (ends[good - 1] if good else start), ends[good]
    for _ in range(BISECTIONS):
        middle = (low + high) / 2
        low, high = (middle, high) if fit(group, start, middle, within) else (low, middle)
    if low <= start:
        raise Unusable(f"a spline cannot be followed within {within / 100:g} mm; its numbers are good for {doubt / 100:.1e} mm")
    return low


@dataclass(frozen=True)
class SplinePiece:
    """The cubic for a part of a spline."""

    parts: tuple
    follower: Follower
    doubt: float

    @property
    def control(self):
        return self.follower.control

    def bound(self, edge):
        """The bound of the edge that takes the cubic's place, at the cubic's pace."""
        found = max(replace(self.follower, control=edge).off(part, HALVINGS) for part in self.parts)
        return up(found + self.doubt)
