"""Tests of the cubics for a drawing's curves and of the bound W, against dense sampling of both curves."""

import math
import random
import unittest
from fractions import Fraction

from clearance.bounds import outline_box
from clearance.drawings import bernstein, outline
from clearance.drawings.arc_fitting import ArcPiece, cubics_for, outward
from clearance.drawings.curves import Arc, Bezier, Spline, Unusable, floats, rounded, taken, whole
from clearance.drawings.fitting import pieces
from clearance.drawings.pieces import BezierPiece, root_up, up
from clearance.gaps import Gap, gaps

# What the search for nearest points may be off by, in hundredths.
SEARCHED = 1e-5


def bezier_function(points):
    points = [floats(point) for point in points]

    def at(t):
        row = points
        while len(row) > 1:
            row = [(a + (c - a) * t, b + (d - b) * t) for (a, b), (c, d) in zip(row, row[1:])]
        return row[0]

    return at


def spline_point(spline, parameter):
    """A point of a spline by the recursion of its basis functions, on its own."""
    degree, knots = spline.degree, spline.knots
    last = len(spline.points) - 1
    span = max(i for i in range(degree, last + 1) if knots[i] <= parameter and knots[i] < knots[i + 1])

    def basis(i, p):
        if p == 0:
            return float(i == span)
        low, high = knots[i + p] - knots[i], knots[i + p + 1] - knots[i + 1]
        left = (parameter - knots[i]) / low * basis(i, p - 1) if low else 0.0
        return left + ((knots[i + p + 1] - parameter) / high * basis(i + 1, p - 1) if high else 0.0)

    shares = [(i, basis(i, degree) * spline.weights[i]) for i in range(span - degree, span + 1)]
    total = sum(share for _, share in shares)
    return tuple(sum(share * float(spline.points[i][axis]) for i, share in shares) / total for axis in (0, 1))


def piece_function(piece, spline=None):
    """The part of the drawing that a piece stands for, as a function on 0 to 1."""
    if isinstance(piece, BezierPiece):
        return bezier_function(piece.control)
    if isinstance(piece, ArcPiece):
        return lambda t: piece.arc.point(piece.first + piece.sweep * t)
    start, end = piece.follower.start, piece.follower.end
    return lambda t: spline_point(spline, min(start + (end - start) * t, spline.knots[len(spline.points)]))


def nearest(curve, samples, point):
    """The distance of a point from a curve: from dense samples, and then closer by thirds."""
    count = len(samples) - 1
    best = min(range(count + 1), key=lambda index: math.dist(samples[index], point))
    low, high = max(0, best - 1) / count, min(count, best + 1) / count
    for _ in range(50):
        a, b = low + (high - low) / 3, high - (high - low) / 3
        if math.dist(curve(a), point) < math.dist(curve(b), point):
            high = b
        else:
            low = a
    return min(math.dist(curve(low), point), math.dist(samples[best], point))


def sampled(first, second, points=24, dense=64):
    """The distance of two curves, both ways, as sampling finds it: never above the true one but for what the search leaves."""
    found = 0.0
    for one, other in ((first, second), (second, first)):
        samples = [other(index / dense) for index in range(dense + 1)]
        found = max(found, max(nearest(other, samples, one(index / points)) for index in range(points + 1)))
    return found


def edge_of(piece):
    return tuple(rounded(point) for point in piece.control)


def exact(*points):
    return tuple((taken(x), taken(y)) for x, y in points)


def circle(centre, radius, first=0.0, sweep=math.tau):
    return Arc(centre, (radius, 0.0), (0.0, radius), first, sweep)


class Numbers(unittest.TestCase):
    def test_noise_of_doubles_is_taken_off(self):
        self.assertEqual(taken(Fraction(0.1 + 0.2) * 100), 30)
        self.assertEqual(taken(1234.4999999999), Fraction(12345, 10))
        self.assertEqual(whole(1234.4999999999), 1235)
        self.assertEqual(whole(-0.5), 0)
        for number in (math.nan, math.inf, -math.inf):
            with self.assertRaises(Unusable):
                taken(number)

    def test_roots_and_doubles_are_rounded_up(self):
        for squared in (Fraction(2), Fraction(1, 3), Fraction(10**12), Fraction(1, 10**20)):
            root = root_up(squared)
            self.assertGreaterEqual(root * root, squared)
            self.assertLess((root - Fraction(1, 10**6)) ** 2 if root > Fraction(1, 10**6) else -1, squared)
        self.assertGreaterEqual(up(0.1), Fraction(0.1))

    def test_parts_of_a_polynomial_have_its_values(self):
        row = [Fraction(n) for n in (3, -7, 11, 2)]
        left, right = bernstein.halves(row)
        self.assertEqual(bernstein.split(row, Fraction(1, 2)), (left, right))
        self.assertEqual(bernstein.between(row, Fraction(1, 4), Fraction(1, 2)), bernstein.halves(left)[1])
        self.assertEqual(bernstein.product([1.0, 1.0, 1.0], [2.0, 4.0]), bernstein.product([2.0, 4.0], [1.0, 1.0, 1.0]))


class Beziers(unittest.TestCase):
    def test_whole_lines_and_cubics_have_no_distance(self):
        for points in (exact((0, 0), (100, 3)), exact((0, 0), (1, 5), (9, 9), (4, -7)), exact((0, 0), (3, 6), (9, 12))):
            (piece,) = pieces(Bezier(points), 1.0)
            self.assertEqual(piece.bound(edge_of(piece)), 0)

    def test_an_elevated_quadratic_is_the_same_curve(self):
        points = exact((0, 0), (10, 20), (31, 7))
        (piece,) = pieces(Bezier(points), 1.0)
        before, after = bezier_function(points), bezier_function(piece.control)
        for step in range(9):
            self.assertLess(math.dist(before(step / 8), after(step / 8)), 1e-12)

    def test_bounds_hold_and_are_the_parameters_own(self):
        chance = random.Random(1)
        for _ in range(40):
            points = exact(*((chance.uniform(-500, 500), chance.uniform(-500, 500)) for _ in range(chance.choice((2, 3, 4)))))
            (piece,) = pieces(Bezier(points), 1.0)
            edge = edge_of(piece)
            bound = float(piece.bound(edge))
            self.assertLessEqual(sampled(piece_function(piece), bezier_function(edge), 12), bound + SEARCHED)
            one, other = piece_function(piece), bezier_function(edge)
            self.assertLess(bound, 1.05 * max(math.dist(one(step / 64), other(step / 64)) for step in range(65)) + SEARCHED)

    def test_a_line_is_off_by_its_farther_end(self):
        (piece,) = pieces(Bezier(exact((0.25, 0), (100, 0.4))), 1.0)
        self.assertEqual(piece.bound(edge_of(piece)), Fraction(4, 10))


class Arcs(unittest.TestCase):
    def test_the_standard_cubic_goes_outside_by_the_closed_form(self):
        self.assertAlmostEqual(outward(math.pi / 2), 2.7253e-4, delta=1e-8)
        for degrees in (5, 30, 60, 90, 120, 150, 180):
            arc = circle((0.0, 0.0), 1.0, 0.3, math.radians(degrees))
            (piece,) = pieces(arc, 1.0)
            curve = bezier_function(piece.control)
            sizes = [math.hypot(*curve(step / 3000)) - 1 for step in range(3001)]
            self.assertGreater(min(sizes), -1e-14)
            self.assertAlmostEqual(max(sizes), outward(math.radians(degrees)), delta=1e-6 * max(sizes) + 1e-15)

    def test_one_cubic_fewer_would_go_too_far(self):
        for radius in (30, 54, 100, 330, 648, 3669, 3670, 50_000, 900_000):
            for sweep in (math.tau, math.pi, 1.0):
                for within in (0.01, 1.0, 5.0):
                    arc = circle((0.0, 0.0), float(radius), 0.0, sweep)
                    count = cubics_for(arc, within)
                    self.assertLessEqual(radius * outward(sweep / count), within)
                    if count > math.ceil(sweep / math.pi):
                        self.assertGreater(radius * outward(sweep / (count - 1)), within)
        self.assertEqual([cubics_for(circle((0, 0), r), 1.0) for r in (50.0, 550.0, 2000.0, 8000.0)], [2, 3, 4, 5])

    def test_bounds_of_circles_hold_and_are_close(self):
        chance = random.Random(2)
        for _ in range(25):
            centre = chance.uniform(-9000, 9000), chance.uniform(-9000, 9000)
            arc = circle(centre, chance.choice((3.0, 40.7, 250.3, 1234.56, 30_000.1)), chance.uniform(0, 6), chance.uniform(-6, 6))
            for piece in pieces(arc, 1.0):
                edge = edge_of(piece)
                found = sampled(piece_function(piece), bezier_function(edge), 16)
                self.assertLessEqual(found, float(piece.bound(edge)) + SEARCHED)
                if math.hypot(*arc.u) > 30:
                    self.assertLess(float(piece.bound(edge)), 1.5 * found + 0.02)

    def test_bounds_of_ellipses_hold(self):
        chance = random.Random(3)
        for _ in range(20):
            u, v = ((chance.uniform(-3000, 3000), chance.uniform(-3000, 3000)) for _ in range(2))
            arc = Arc((chance.uniform(-9, 9), 0.5), u, v, chance.uniform(0, 6), chance.uniform(-6, 6))
            for piece in pieces(arc, 2.0):
                edge = edge_of(piece)
                self.assertLessEqual(sampled(piece_function(piece), bezier_function(edge), 12), float(piece.bound(edge)) + SEARCHED)

    def test_ends_of_parts_meet(self):
        parts = pieces(circle((0.5, 0.5), 777.7), 0.01)
        self.assertGreater(len(parts), 4)
        edges = [edge_of(part) for part in parts]
        for index, edge in enumerate(edges):
            self.assertEqual(edges[index - 1][-1], edge[0])


class Splines(unittest.TestCase):
    def check(self, spline, within):
        parts = pieces(spline, within)
        for piece in parts:
            edge = edge_of(piece)
            found = sampled(piece_function(piece, spline), bezier_function(edge), 12, 48)
            self.assertLessEqual(found, float(piece.bound(edge)) + SEARCHED)
            if not isinstance(piece, BezierPiece):
                self.assertLessEqual(sampled(piece_function(piece, spline), bezier_function(piece.control), 12, 48), within + SEARCHED)
        return parts

    def random_spline(self, chance, degree, count, rational):
        points = exact(*((1000 * i + chance.uniform(-500, 500), chance.uniform(-2000, 2000)) for i in range(count)))
        inner = sorted(chance.uniform(0.1, 0.9) for _ in range(count - degree - 1))
        weights = tuple(chance.uniform(0.4, 2.5) if rational else 1.0 for _ in points)
        return Spline(degree, (0.0,) * (degree + 1) + tuple(inner) + (1.0,) * (degree + 1), points, weights)

    def test_bounds_hold_for_every_degree(self):
        chance = random.Random(4)
        for degree in (2, 3, 4, 5):
            for rational in (False, True):
                self.check(self.random_spline(chance, degree, degree + 3, rational), 2.0)

    def test_a_bezier_stays_itself(self):
        points = exact((0, 0), (100, 300), (400, 300), (500, 0))
        spline = Spline(3, (0.0,) * 4 + (1.0,) * 4, points, (1.0,) * 4)
        (piece,) = pieces(spline, 1.0)
        self.assertEqual((piece.control, piece.bound(edge_of(piece))), (points, 0))
        quadratic = Spline(2, (0.0,) * 3 + (5.0,) * 3, exact((0, 0), (300, 300), (600, 0)), (2.0,) * 3)
        (piece,) = pieces(quadratic, 1.0)
        self.assertEqual((edge_of(piece), piece.bound(edge_of(piece))), (((0, 0), (200, 200), (400, 200), (600, 0)), 0))

    def test_spans_are_joined_where_one_cubic_follows_them(self):
        # A cubic with a knot put into it: two spans, one curve.
        points = exact((0, 0), (50, 150), (175, 300), (325, 300), (450, 150))[:2] + exact((250, 300), (450, 150), (500, 0))
        spline = Spline(3, (0.0,) * 4 + (0.5,) + (1.0,) * 4, points, (1.0,) * 5)
        self.assertEqual(len(self.check(spline, 1.0)), 1)

    def test_lines_of_degree_one(self):
        spline = Spline(1, (0.0, 0.0, 1.0, 2.0, 2.0), exact((0, 0), (10, 0), (10, 10)), (1.0, 3.0, 1.0))
        self.assertEqual([piece.control for piece in pieces(spline, 1.0)], [exact((0, 0), (10, 0)), exact((10, 0), (10, 10))])

    def test_a_corner_ends_a_piece(self):
        points = exact((0, 0), (1, 2), (3, 4), (100, 0), (197, 4), (199, 2), (200, 0))
        knots = (0.0,) * 4 + (1.0,) * 3 + (2.0,) * 4
        for degree_weights in ((1.0,) * 7, (1.0, 1.1, 1.0, 1.0, 1.0, 1.0, 1.0)):
            parts = self.check(Spline(3, knots, points, degree_weights), 50.0)
            self.assertIn((100.0, 0.0), [floats(piece.control[-1]) for piece in parts])

    def test_a_rational_circle(self):
        half = math.sqrt(0.5)
        square = [(1, 0), (1, 1), (0, 1), (-1, 1), (-1, 0), (-1, -1), (0, -1), (1, -1), (1, 0)]
        points = exact(*((1000 * x, 1000 * y) for x, y in square))
        spline = Spline(2, (0.0,) * 3 + (1.0,) * 2 + (2.0,) * 2 + (3.0,) * 2 + (4.0,) * 3, points, (1.0, half) * 4 + (1.0,))
        parts = self.check(spline, 1.0)
        self.assertLessEqual(len(parts), 9)

    def test_unclamped_knots(self):
        spline = Spline(3, tuple(map(float, range(9))), exact((0, 0), (900, 2000), (1800, -500), (2700, 900), (3600, 0)), (1.0,) * 5)
        self.check(spline, 1.0)

    def test_bad_splines_are_told(self):
        points = exact((0, 0), (1, 1), (2, 0))
        good = (0.0, 0.0, 0.0, 1.0, 1.0, 1.0)
        for knots, weights in (
            (good[:-1], (1.0,) * 3),
            (good, (1.0, 0.0, 1.0)),
            (good, (1.0, -1.0, 1.0)),
            (good, (1.0,) * 2),
            ((0.0, 0.0, 1.0, 0.5, 1.0, 1.0), (1.0,) * 3),
            ((0.0,) * 6, (1.0,) * 3),
            ((0.0, 0.0, 0.0, math.nan, 1.0, 1.0), (1.0,) * 3),
            ((0.0, 0.0, 0.0, math.inf, math.inf, math.inf), (1.0,) * 3),
        ):
            with self.assertRaises(Unusable):
                pieces(Spline(2, knots, points, weights), 1.0)


class Outlines(unittest.TestCase):
    def test_straight_lines_are_joined(self):
        lines = [Bezier(exact(*ends)) for ends in (((0, 0), (10, 5)), ((10, 5), (30, 15)), ((30, 15), (20, 10)), ((20, 10), (20, 40)))]
        found = outline.outline_of(lines, 1.0)
        self.assertEqual(found.edges, ((0, 0, 30, 15), (30, 15, 20, 10), (20, 10, 20, 40)))
        self.assertEqual((found.joined, found.off), (1, 0))

    def test_a_closed_run_is_joined_where_it_begins(self):
        corners = exact((50, 0), (100, 0), (100, 100), (0, 100), (0, 0), (50, 0))
        found = outline.outline_of([Bezier(ends) for ends in zip(corners, corners[1:])], 1.0)
        self.assertEqual(len(found.edges), 4)
        self.assertIn((0, 0, 100, 0), found.edges)

    def test_lines_back_and_forth_stay(self):
        lines = [Bezier(exact((0, 0), (10, 0))), Bezier(exact((10, 0), (0, 0)))]
        self.assertEqual(len(outline.outline_of(lines, 1.0).edges), 2)

    def test_edges_without_length(self):
        short = [Bezier(exact((0, 0), (100, 0))), Bezier(exact((100, 0), (100, 0))), Bezier(exact((100, 0), (100.4, 0.3)))]
        found = outline.outline_of(short, 1.0)
        self.assertEqual((found.edges, found.dropped, found.off), (((0, 0, 100, 0),), 2, Fraction(1, 2)))
        alone = outline.outline_of([Bezier(exact((0.1, 0), (0.2, 0)))], 1.0)
        self.assertEqual(alone.edges, ((0, 0, 0, 0),))
        with self.assertRaises(Unusable):
            outline.outline_of([Bezier(exact((5, 5), (5, 5)))], 1.0)

    def test_gaps(self):
        square = ((0, 0, 10, 0), (10, 0, 10, 10), (10, 10, 0, 10))
        self.assertEqual(gaps(square + ((0, 10, 0, 0),)), [])
        self.assertEqual(gaps(square + ((0, 10, 0, 3),)), [Gap(0, (0, 0), 9), Gap(3, (0, 3), 9)])
        self.assertEqual(gaps(((0, 0, 3, 4),)), [Gap(0, (0, 0), 25), Gap(0, (3, 4), 25)])
        self.assertEqual(gaps(((0, 0, 9, 9, -9, 9, 0, 0),)), [])
        # To another edge's free end, though one's own other end is nearer, or an end where edges meet.
        self.assertEqual([gap.squared for gap in gaps(((0, 0, 10, 0), (10, 0, 10, 10)))], [200, 200])
        self.assertEqual([gap.squared for gap in gaps(((0, 0, 1, 0), (0, 5, 9, 9)))], [145, 26, 25, 25])

    def test_the_box_is_that_of_the_curves(self):
        edges = tuple(tuple(z for point in edge_of(piece) for z in point) for piece in pieces(circle((100.0, 50.0), 1000.0), 1.0))
        self.assertEqual(outline_box(edges), (-900, -950, 1100, 1050))

    def test_far_coordinates_and_reaches(self):
        outline.placed(outline.outline_of([Bezier(exact((0, 0), (1_000_000, -1_000_000)))], 1.0))
        far = outline.outline_of([Bezier(exact((2_000_000.5, 0), (1_000_001, 0)))], 1.0)
        with self.assertRaises(Unusable):
            outline.placed(far)
        home = outline.placed(far, (-5, 7))
        self.assertEqual((home.edges, home.off), (((999_995, 7, -5, 7),), far.off))
        self.assertEqual(outline.reach_for(Fraction(2501, 10), Fraction(12, 10)), 253)
        self.assertEqual(outline.reach_for(Fraction(250), Fraction(0)), 250)
        with self.assertRaises(Unusable):
            outline.reach_for(Fraction(1_000_000), Fraction(1, 10))


if __name__ == "__main__":
    unittest.main()
