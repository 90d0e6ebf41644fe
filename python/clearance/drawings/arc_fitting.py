"""The fewest standard cubics for arcs of circles and ellipses, and bounds on their distance from the arcs.

Sines, roots and quotients are computed in doubles; `slack` is added for their errors.
"""

import math
from dataclasses import dataclass

from . import bernstein
from .curves import Arc, Unusable, floats
from .pieces import HALVINGS, PIECES_MOST, longest_squared, moves, up


def outward(angle):
    """How far the standard cubic for an arc of this angle goes outside the unit circle, at most; it never goes inside.

    The cubic B has the ends and tangents of the arc and handles of 4/3 tan(q), q = angle / 4. At t = 0, 1/2 and 1 it
    touches the circle, so |B|^2 - 1, of degree six, is K t^2 (1 - t)^2 (1 - 2t)^2. The factor of t^3 in B is as long as
    8 sin(q)^3 / cos(q) (write the chord as 2 sin(2q) and subtract thrice the inner side of the control polygon); its
    square is the factor of t^6, 4K. With s = t (1 - t) the product is s^2 (1 - 4s), at most 1/108, at s = 1/6. So
    |B|^2 - 1 is from 0 to D = 16/108 sin(q)^6 / cos(q)^2, and |B| - 1 at most sqrt(1 + D) - 1 = D / (1 + sqrt(1 + D)).

    For an angle of at most 180 degrees the control points go once around in the order of their directions, since
    4/3 tan(q) <= tan(2q). A line through the centre crosses their polygon once at most inside the arc's angle, hence
    (variation diminishing) the cubic too: its direction runs through the arc's once. So each point of the arc and the
    cubic's point on the same ray are a pair, and the bound holds both ways. An affine map keeps pairs, and stretches by
    the larger semi-axis at most.
    """
    q = angle / 4
    squared = 4 / 27 * math.sin(q) ** 6 / math.cos(q) ** 2
    return squared / (1 + math.sqrt(1 + squared))


def cubics_for(arc, within):
    """The fewest standard cubics of at most 180 degrees that stay within so much of an arc.

    `outward` grows with the angle, and of n parts one has at least the n-th part of the sweep: equal parts are best.
    """
    count = max(1, math.ceil(abs(arc.sweep) / math.pi - 1e-9))
    while arc.longest() * outward(abs(arc.sweep) / count) > within:
        count += 1
        if count > PIECES_MOST:
            raise Unusable(f"an arc needs more than {PIECES_MOST:,} cubics")
    return count


def slack(arc):
    """What double arithmetic may put the points of an arc, of its cubics and of its bounds off by.

    A control point takes fewer than 40 operations, sines and tangents among them, each within 2^-52 of its result, and
    no result is larger than the centre's size and twice the larger semi-axis together. A bound of `radial` takes fewer
    than 200 more, each within 2^-53 of a squared radius, and is divided by two radii. All together are below 2^-45 of
    those sizes: for an arc of a plate of 10 m that is below 10^-7.
    """
    return 2.0**-45 * (math.hypot(*arc.centre) + 2 * arc.longest()) + arc.doubt


@dataclass(frozen=True)
class ArcPiece:
    """The standard cubic for a part of an arc, from the angle `first` on for `sweep`."""

    arc: Arc
    first: float
    sweep: float
    control: tuple

    def bound(self, edge):
        found = self.moved(edge)
        if self.arc.is_circle():
            found = min(found, self.radial(edge))
        return up(found + slack(self.arc))

    def moved(self, edge):
        """The cubic is off the arc by `outward`, and the edge off the cubic by a mean of the control points' moves."""
        rows = moves(edge, [floats(point) for point in self.control])
        return self.arc.longest() * outward(abs(self.sweep)) + math.sqrt(longest_squared(rows, HALVINGS))

    def radial(self, edge):
        """For a circle of radius r: the edge against the circle itself. Infinite where this does not tell.

        Let p(t) be the edge's distance from the centre. p^2 - r^2 has degree six, and its coefficients bound it, so
        |p - r| = |p^2 - r^2| / (p + r) is at most some a. Where the control points' directions from the centre follow each
        other within a half turn, the edge's direction runs one way (as in `outward`). So an edge's point whose direction the
        arc has is within a of the arc, and the other way round. The other points lie between an end of the arc and that end
        of the edge, d apart in direction or less: two points of distances p and r that are d apart in direction are
        sqrt((p - r)^2 + 4 p r sin^2(d/2)) apart, and of the ends themselves that is known: so 4 p r sin^2(d/2) is at most
        the square of the ends' distance less that of their radii's difference, times the largest p by the end's. With b^2
        the larger of both ends', each point is within sqrt(a^2 + b^2).
        """
        radius = math.hypot(*self.arc.u)
        arms = [(x - self.arc.centre[0], y - self.arc.centre[1]) for x, y in edge]
        if not one_way(arms, self.turns_left()):
            return math.inf
        xs, ys = zip(*arms)
        row = [x + y - radius * radius for x, y in zip(bernstein.product(xs, xs), bernstein.product(ys, ys))]
        values = [value for (part,) in bernstein.halved([row], HALVINGS) for value in part]
        least, most = min(values), max(values)
        nearest = math.sqrt(max(0.0, radius * radius + least))
        a = max(-least, most) / (radius + nearest)
        b_squared = max(self.sideways(edge, index, math.sqrt(radius * radius + most)) for index in (0, -1))
        return math.sqrt(a * a + b_squared)

    def sideways(self, edge, index, farthest):
        """b squared of one end."""
        end = self.arc.point(self.first + (self.sweep if index else 0.0))
        apart = math.hypot(edge[index][0] - end[0], edge[index][1] - end[1])
        radius = math.hypot(*self.arc.u)
        distance = math.hypot(edge[index][0] - self.arc.centre[0], edge[index][1] - self.arc.centre[1])
        return max(0.0, apart * apart - (distance - radius) ** 2) * farthest / distance

    def turns_left(self):
        """Whether the arc goes around its centre against the clock."""
        (ux, uy), (vx, vy) = self.arc.u, self.arc.v
        return (ux * vy - uy * vx > 0) == (self.sweep > 0)


def one_way(arms, left):
    """Whether vectors follow each other around within a half turn, each clearly behind the last."""
    sign = 1 if left else -1
    for index, (ax, ay) in enumerate(arms):
        for bx, by in arms[index + 1 :]:
            if sign * (ax * by - ay * bx) <= 1e-9 * math.hypot(ax, ay) * math.hypot(bx, by):
                return False
    return True


def arc_pieces(arc, within):
    count = cubics_for(arc, within)
    sweep = arc.sweep / count
    handle = 4 / 3 * math.tan(sweep / 4)
    angles = [arc.first + sweep * index for index in range(count + 1)]
    ends = [arc.point(angle) for angle in angles]
    if arc.start is not None:
        ends[0], ends[-1] = floats(arc.start), floats(arc.end)
    elif abs(arc.sweep) >= 2 * math.pi - 1e-12:
        ends[-1] = ends[0]
    found = []
    for index in range(count):
        start, end = ends[index : index + 2]
        out, back = arc.forward(angles[index]), arc.forward(angles[index + 1])
        inner = tuple(p + handle * d for p, d in zip(start, out)), tuple(p - handle * d for p, d in zip(end, back))
        found.append(ArcPiece(arc, angles[index], sweep, (start, *inner, end)))
    return found
