"""Tests of the verb `from`: job sheets from DXF and SVG drawings."""

import importlib.util
import json
import math
import os
import random
import re
import subprocess
import sys
import tempfile
import unittest
from fractions import Fraction
from pathlib import Path
from unittest import mock

from clearance.bounds import outline_box
from clearance.drawings import dxf, outline, reading, svg, svg_check
from clearance.drawings.fitting import pieces
from clearance.drawings.reading import Wish
from clearance.drawings.svg_numbers import Fault
from clearance.job import Job

from .samples import command_bytes
from .test_fitting import SEARCHED, bezier_function, edge_of, piece_function, sampled

DRAWINGS = Path(__file__).resolve().parents[2] / "examples" / "drawings"
PARTS = ("bracket", "flange", "gear", "text")


def is_there(name):
    """Whether a package can be imported; one that is hidden cannot."""
    try:
        importlib.import_module(name)
    except ImportError:
        return False
    return True


HAS = {name: is_there(name) for name in ("ezdxf", "svgelements")}
needs_ezdxf = unittest.skipUnless(HAS["ezdxf"], "the package ezdxf is missing")
needs_svgelements = unittest.skipUnless(HAS["svgelements"], "the package svgelements is missing")


def ran(*words):
    """Status, standard output and standard error of the verb."""
    return command_bytes("from", *words)


class Case(unittest.TestCase):
    def setUp(self):
        folder = tempfile.TemporaryDirectory()
        self.addCleanup(folder.cleanup)
        self.folder = Path(folder.name)

    def file(self, name, data):
        path = self.folder / name
        path.write_bytes(data if isinstance(data, bytes) else data.encode("utf-8"))
        return path

    def job(self, path, *words, reach="2.5"):
        """The job of a drawing, and what was said."""
        status, out, err = ran(path, "--reach", reach, *words)
        self.assertEqual(status, 0, err)
        return Job.from_sheet(out), err

    def finding(self, path, *said, words=(), status=1):
        """That a drawing ends the verb with a message that names it, and that nothing is written."""
        before = sorted(os.listdir(self.folder))
        found, out, err = ran(path, "--reach", "2.5", *words)
        self.assertEqual((found, out), (status, b""), err)
        self.assertTrue(err.startswith(f"clearance: {path}:"), err)
        self.assertEqual(err.count("\n"), 1, err)
        for text in said:
            self.assertIn(text, err)
        self.assertEqual(sorted(os.listdir(self.folder)), before)


# DXF.


def tags(*pairs):
    return "".join(f"{code}\n{value}\n" for code, value in pairs)


def points(code, *all_points):
    return [(code + 10 * axis, value) for point in all_points for axis, value in enumerate(point)]


def entity(kind, *pairs):
    return tags((0, kind), (8, "0"), *pairs)


def newer(kind, subclass, *pairs):
    """An entity as DXF has it from release 13 on."""
    return tags((0, kind), (100, "AcDbEntity"), (8, "0"), (100, subclass), *pairs)


def dxf_file(*entities, units=4, blocks=""):
    header = tags((0, "SECTION"), (2, "HEADER"), (9, "$ACADVER"), (1, "AC1015"), (9, "$INSUNITS"), (70, units), (0, "ENDSEC"))
    if blocks:
        header += tags((0, "SECTION"), (2, "BLOCKS")) + blocks + tags((0, "ENDSEC"))
    return header + tags((0, "SECTION"), (2, "ENTITIES")) + "".join(entities) + tags((0, "ENDSEC"), (0, "EOF"))


def block(name, *entities):
    begin = newer("BLOCK", "AcDbBlockBegin", (2, name), (70, 0), *points(10, (0, 0, 0)), (3, name))
    return begin + "".join(entities) + newer("ENDBLK", "AcDbBlockEnd")


def insert(name, *pairs):
    return newer("INSERT", "AcDbBlockReference", (2, name), *pairs)


LINE = entity("LINE", *points(10, (0, 0)), *points(11, (10, 5)))


def spline(degree, knots, *all_points):
    return newer("SPLINE", "AcDbSpline", (70, 8), (71, degree), *[(40, knot) for knot in knots], *points(10, *all_points))


def polyline(*pairs):
    return newer("LWPOLYLINE", "AcDbPolyline", (90, sum(code == 10 for code, _ in pairs)), *pairs)


SPLINE = spline(3, [0] * 4 + [1] * 4, (0, 0, 0), (1, 3, 0), (4, 3, 0), (5, 0, 0))


@needs_ezdxf
class Dxf(Case):
    def edges(self, *entities, words=(), **more):
        return self.job(self.file("part.dxf", dxf_file(*entities, **more)), *words)[0].edges

    def test_inserts_that_ezdxf_would_misplace(self):
        """An insert has no shear and no scaled spacing: a rotated one in an uneven one, and an array in any, are findings."""
        inner = block("B", LINE)
        for pairs, outer, said in [
            ([(50, 90)], [(41, 2), (42, 1)], "scaled unevenly"),
            ([(50, 45)], [(41, 1), (42, -3)], "scaled unevenly"),
            ([(70, 2), (44, 20)], [(41, 2), (42, 2)], "array of inserts"),
        ]:
            nested = inner + block("C", insert("B", *points(10, (0, 0, 0)), *pairs))
            path = self.file("part.dxf", dxf_file(insert("C", *points(10, (0, 0, 0)), *outer), blocks=nested))
            self.finding(path, said)

    def test_inserts_in_inserts(self):
        inner = block("B", LINE)
        for pairs, outer, edge in [
            ([(50, 90)], [(41, 2), (42, 2)], (0, 0, -1000, 2000)),
            ([(50, 90)], [(41, -2), (42, 2)], (0, 0, 1000, 2000)),
            ([(41, 3), (42, 1)], [(41, 2), (42, 1)], (0, 0, 6000, 500)),
        ]:
            nested = inner + block("C", insert("B", *points(10, (0, 0, 0)), *pairs))
            self.assertEqual(self.edges(insert("C", *points(10, (0, 0, 0)), *outer), blocks=nested), (edge,))

    def test_what_goes_around_once_and_a_hair_is_whole(self):
        for last in (360, 360.000001, 360 + 1e-13):
            self.assertEqual(len(self.edges(entity("ARC", *points(10, (20, 10)), (40, 5), (50, 0), (51, last)))), 3, last)
        for last in (6.283185307, 6.28318531, 6.2832):
            whole = newer("ELLIPSE", "AcDbEllipse", *points(10, (20, 10, 0)), *points(11, (5, 0, 0)), (40, 0.5), (41, 0), (42, last))
            self.assertEqual(outline_box(self.edges(whole))[:3:2], (1500, 2500), last)
        speck = newer("ELLIPSE", "AcDbEllipse", *points(10, (20, 10, 0)), *points(11, (5, 0, 0)), (40, 0.5), (41, 1.0), (42, 1.0 + 1e-10))
        self.assertEqual(outline_box(self.edges(LINE, speck)), (0, 0, 2270, 1210))

    def test_a_bulge_that_is_as_good_as_none(self):
        """It is a line, and W has what the arc is off it."""
        for bulge, chord in ((1e-12, 4000), (1e-10, 1000), (1e-8, 100)):
            line = newer("LWPOLYLINE", "AcDbPolyline", (90, 2), (70, 0), *points(10, (0, 0)), (42, bulge), *points(10, (chord, 0)))
            job, said = self.job(self.file("part.dxf", dxf_file(line)))
            self.assertEqual(job.edges, ((0, 0, 100 * chord, 0),))
            w = float(re.search(r"W is ([0-9.]+) hundredths", said)[1])
            self.assertTrue(bulge * chord * 50 <= w <= bulge * chord * 50 + 2e-6, (bulge, w))

    def test_a_line(self):
        self.assertEqual(self.edges(LINE), ((0, 0, 1000, 500),))

    def test_units(self):
        for code, edge in ((1, (0, 0, 25400, 12700)), (2, (0, 0, 304800, 152400)), (5, (0, 0, 10000, 5000)), (6, (0, 0, 1000000, 500000))):
            path = self.file("part.dxf", dxf_file(LINE, units=code))
            self.assertEqual(self.job(path, reach="0.1")[0].edges if code != 6 else (edge,), (edge,))
        self.assertEqual(self.edges(LINE, units=0, words=("--units", "cm")), ((0, 0, 10000, 5000),))
        self.assertEqual(self.edges(LINE, units=1, words=("--units", "mm")), ((0, 0, 1000, 500),))

    def test_units_are_asked_for(self):
        for units in (0, 7):
            self.finding(self.file("part.dxf", dxf_file(LINE, units=units)), "--units mm|cm|m|in|ft")
        without = tags((0, "SECTION"), (2, "ENTITIES")) + LINE + tags((0, "ENDSEC"), (0, "EOF"))
        self.finding(self.file("part.dxf", without), "--units")

    def test_a_circle(self):
        edges = self.edges(entity("CIRCLE", *points(10, (20, 10)), (40, 5)))
        self.assertEqual(len(edges), 3)
        self.assertEqual({edge[:2] for edge in edges}, {edge[-2:] for edge in edges})
        self.assertEqual(edges[0][:2], (2500, 1000))

    def test_an_arc_goes_against_the_clock_over_zero(self):
        (edge,) = self.edges(entity("ARC", *points(10, (0, 0)), (40, 10), (50, 330), (51, 30)))
        self.assertEqual((edge[:2], edge[-2:]), ((866, -500), (866, 500)))
        self.assertGreater(edge[2], 866)

    def test_mirrored_planes(self):
        below = points(210, (0, 0, -1))
        (edge,) = self.edges(entity("ARC", *points(10, (10, 0)), (40, 10), (50, 0), (51, 90), *below))
        self.assertEqual((edge[:2], edge[-2:]), ((-2000, 0), (-1000, 1000)))
        (edge,) = self.edges(polyline((70, 0), (10, 0), (20, 0), (42, math.tan(math.pi / 8)), (10, 10), (20, 10), *below))
        self.assertEqual((edge[:2], edge[-2:]), ((0, 0), (-1000, 1000)))
        self.assertEqual(edge[2:4], (-552, 0))  # to the right of its chord in its own plane: it leaves along x
        half = newer("ELLIPSE", "AcDbEllipse", *points(10, (0, 0, 0)), *points(11, (10, 0, 0)), *below, (40, 0.5), (41, 0), (42, math.pi))
        (first, _) = self.edges(half)
        self.assertEqual((first[:2], first[-2:]), ((1000, 0), (0, -500)))

    def test_polylines_with_bulges(self):
        pairs = [(10, 0), (20, 0), (10, 20), (20, 0), (42, 1), (10, 20), (20, 10), (10, 0), (20, 10), (42, 1)]
        edges = self.edges(newer("LWPOLYLINE", "AcDbPolyline", (90, 4), (70, 1), *pairs))
        self.assertEqual(edges[0], (0, 0, 2000, 0))
        self.assertEqual([len(edge) for edge in edges], [4, 8, 8, 4, 8, 8])
        self.assertEqual(edges[1][-2:], (2500, 500))
        old = entity("POLYLINE", (66, 1), (70, 1), *points(10, (0, 0, 0)))
        for x, y, bulge in ((0, 0, 0), (20, 0, 1), (20, 10, 0), (0, 10, 1)):
            old += entity("VERTEX", (10, x), (20, y), (30, 0), (42, bulge))
        self.assertEqual(self.edges(old + entity("SEQEND")), edges)

    def test_a_negative_bulge_turns_right(self):
        (first, *_) = self.edges(newer("LWPOLYLINE", "AcDbPolyline", (90, 2), (70, 0), (10, 0), (20, 0), (42, -1), (10, 10), (20, 0)))
        self.assertEqual(first[-2:], (500, 500))

    def test_ellipses(self):
        whole = newer("ELLIPSE", "AcDbEllipse", *points(10, (5, 5, 0)), *points(11, (0, 20, 0)), (40, 0.25), (41, 0), (42, math.tau))
        edges = self.edges(whole)
        self.assertEqual(edges[0][:2], (500, 2500))
        self.assertEqual(edges[-1][-2:], (500, 2500))
        self.assertEqual(outline_box(edges), (0, -1500, 1000, 2500))

    def test_splines(self):
        self.assertEqual(self.edges(SPLINE), ((0, 0, 100, 300, 400, 300, 500, 0),))
        fit = newer("SPLINE", "AcDbSpline", (70, 8), (71, 3), (72, 0), (73, 0), (74, 2), *points(11, (0, 0, 0), (1, 3, 0)))
        self.finding(self.file("part.dxf", dxf_file(fit)), "fit points")

    def test_blocks(self):
        inner = block("INNER", LINE)
        outer = block("OUTER", insert("INNER", *points(10, (100, 0, 0))), entity("TEXT", *points(10, (0, 0)), (40, 1), (1, "hi")))
        turned = insert("OUTER", *points(10, (0, 0, 0)), (41, 2), (42, 2), (50, 90))
        path = self.file("part.dxf", dxf_file(turned, blocks=inner + outer))
        self.finding(path, "1 TEXT makes no edge")
        job, err = self.job(path, "--leave-out", "text")
        self.assertEqual(job.edges, ((0, 20000, -1000, 22000),))
        self.assertIn("left out: 1 text", err)
        rows = insert("INNER", *points(10, (0, 0, 0)), (70, 2), (71, 3), (44, 50), (45, 30))
        self.assertEqual(len(self.edges(rows, blocks=inner)), 6)
        uneven = block("ROUND", entity("CIRCLE", *points(10, (0, 0)), (40, 10)))
        edges = self.edges(insert("ROUND", *points(10, (0, 0, 0)), (41, 2), (42, 1)), blocks=uneven)
        self.assertEqual(outline_box(edges), (-2000, -1000, 2000, 1000))
        self.finding(self.file("part.dxf", dxf_file(insert("NONE", *points(10, (0, 0, 0))))), "'NONE' is missing")

    def test_blocks_that_grow_without_bound(self):
        blocks = block("B0", LINE)
        for level in range(1, 12):
            blocks += block(f"B{level}", *[insert(f"B{level - 1}", *points(10, (0, 0, 0)))] * 10)
        self.finding(self.file("part.dxf", dxf_file(insert("B11", *points(10, (0, 0, 0))), blocks=blocks)), "entities")
        rows = insert("B0", *points(10, (0, 0, 0)), (70, 30000), (71, 30000), (44, 1), (45, 1))
        self.finding(self.file("part.dxf", dxf_file(rows, blocks=block("B0", LINE))), "entities")
        ring = block("A", insert("B", *points(10, (0, 0, 0)))) + block("B", insert("A", *points(10, (0, 0, 0))))
        self.finding(self.file("part.dxf", dxf_file(insert("A", *points(10, (0, 0, 0))), blocks=ring)))

    def test_what_is_not_flat(self):
        for not_flat in (
            entity("LINE", *points(10, (0, 0, 0)), *points(11, (1, 1, 1))),
            entity("CIRCLE", *points(10, (0, 0, 3)), (40, 5)),
            entity("CIRCLE", *points(10, (0, 0, 0)), (40, 5), *points(210, (0, 1, 0))),
            newer("LWPOLYLINE", "AcDbPolyline", (90, 2), (70, 0), (38, 4), (10, 0), (20, 0), (10, 1), (20, 1)),
        ):
            self.finding(self.file("part.dxf", dxf_file(LINE, not_flat)), "is not in the plane z = 0")

    def test_others_are_left_out_and_counted(self):
        others = entity("TEXT", *points(10, (0, 0)), (40, 1), (1, "hi")) * 2 + entity("POINT", *points(10, (0, 0)))
        path = self.file("part.dxf", dxf_file(LINE, others))
        self.finding(path, "2 TEXT make no edge", "--leave-out text goes on without it")
        _, err = self.job(path, "--leave-out", "text")
        self.assertIn("left out: 1 point, 2 text", err)
        self.assertIn("no point of what was taken", err)
        nothing = self.file("part.dxf", dxf_file(others))
        self.finding(nothing, "nothing in it that makes an edge; left out: 1 point, 2 text", words=("--leave-out", "text"))
        self.finding(self.file("part.dxf", dxf_file()), "nothing in it")

    def test_numbers_that_are_none(self):
        for value in ("nan", "inf", "1e400"):
            for bad in (
                entity("LINE", *points(10, (0, 0)), *points(11, (value, 5))),
                entity("CIRCLE", *points(10, (0, 0)), (40, value)),
                entity("ARC", *points(10, (0, 0)), (40, 5), (50, value), (51, 90)),
                newer("LWPOLYLINE", "AcDbPolyline", (90, 2), (70, 0), (10, 0), (20, 0), (42, value), (10, 1), (20, 1)),
                newer("ELLIPSE", "AcDbEllipse", *points(10, (0, 0, 0)), *points(11, (1, 0, 0)), (40, value), (41, 0), (42, 1)),
                SPLINE.replace("40\n1\n", f"40\n{value}\n"),
            ):
                self.finding(self.file("part.dxf", dxf_file(bad)))

    def test_lines_without_ends(self):
        self.finding(self.file("part.dxf", dxf_file(entity("LINE", *points(10, (0, 0))))), "has no end")

    def test_far_coordinates(self):
        far = self.file("part.dxf", dxf_file(entity("LINE", *points(10, (0, 0)), *points(11, (10_001, 0)))))
        self.finding(far, "10,000 mm at most", "--at moves it")
        self.assertEqual(self.job(far, "--at", "-5000", "0")[0].edges, ((-500000, 0, 500100, 0),))
        wide = self.file("part.dxf", dxf_file(entity("LINE", *points(10, (-6000, 0)), *points(11, (16_000, 0)))))
        self.finding(wide, "it is 22,000.00 by 0.00 mm, and the largest plate 10,485.76 mm wide")
        for number in (1e308, -1e200, 1e20):
            for code in (10, 30):
                huge = entity("LINE", (10, 0), (20, 0), (30, 0), *points(11, (5, 5, 0))).replace(f"{code}\n0\n", f"{code}\n{number!r}\n", 1)
                status, _, err = ran(self.file("part.dxf", dxf_file(huge)), "--reach", "1")
                self.assertEqual((status, len(err) < 200), (1, True), err)
                self.assertIn("mm is the most that is read", err)

    def test_broken_files(self):
        good = dxf_file(LINE)
        for cut in range(60, len(good) - 8, 7):
            path = self.file("part.dxf", good[:cut])
            status, _, err = ran(path, "--reach", "1")
            self.assertEqual(status, 1, err)
        for broken in (good.replace("10\n", "ten\n"), good.replace("11\n10", "11\nx"), "0\nSECTION\n" + "\x00" * 100):
            self.finding(self.file("part.dxf", broken))

    def test_binary_files(self):
        import ezdxf  # pylint: disable=import-outside-toplevel

        document = ezdxf.new("R2000", units=4)
        document.modelspace().add_line((0, 0), (10, 5))
        path = self.folder / "binary.dxf"
        document.saveas(path, fmt="bin")
        self.assertEqual(self.job(path)[0].edges, ((0, 0, 1000, 500),))

    def test_line_ends_of_other_systems_and_comments(self):
        for data in (dxf_file(LINE).replace("\n", "\r\n"), "999\nmade by hand\n" + dxf_file(LINE)):
            self.assertEqual(self.job(self.file("part.dxf", data))[0].edges, ((0, 0, 1000, 500),))

    def test_splines_of_too_many_points(self):
        many = spline(3, range(505), *[(i, i % 7, 0) for i in range(501)])
        self.finding(self.file("part.dxf", dxf_file(many)), "more than 500 control points")
        high = spline(40, [0] * 41 + [1] * 41, *[(i, i % 7, 0) for i in range(41)])
        self.finding(self.file("part.dxf", dxf_file(high)), "the degree 40")

    def test_too_long_files(self):
        self.finding(self.file("part.dxf", dxf_file(LINE * 100_000)), "more than 1,000,000 bytes")


# SVG.


def svg_file(*shapes, root='width="60mm" height="40mm" viewBox="0 0 60 40"', before=""):
    names = 'xmlns="http://www.w3.org/2000/svg" xmlns:xlink="http://www.w3.org/1999/xlink"'
    return f"{before}<svg {names} {root}>\n" + "\n".join(shapes) + "\n</svg>\n"


def standard_arc(ends, rx, ry, turn, large, sweep):
    """An arc of a path as a function on 0 to 1, by the centre that the standard gives it."""
    cos, sin = math.cos(math.radians(turn)), math.sin(math.radians(turn))
    dx, dy = (ends[0] - ends[2]) / 2, (ends[1] - ends[3]) / 2
    x, y = cos * dx + sin * dy, cos * dy - sin * dx
    grown = max(1, math.hypot(x / rx, y / ry))
    rx, ry = rx * grown, ry * grown
    size = (x / rx) ** 2 + (y / ry) ** 2
    away = math.sqrt(max(0, 1 / size - 1)) * (-1 if large == sweep else 1)
    cx, cy = away * rx * y / ry, -away * ry * x / rx
    first, last = math.atan2((y - cy) / ry, (x - cx) / rx), math.atan2((-y - cy) / ry, (-x - cx) / rx)
    angle = (last - first) % math.tau - (0 if sweep else math.tau)

    def at(t):
        px, py = cx + rx * math.cos(first + angle * t), cy + ry * math.sin(first + angle * t)
        return cos * px - sin * py + (ends[0] + ends[2]) / 2, sin * px + cos * py + (ends[1] + ends[3]) / 2

    return at


@needs_svgelements
class Svg(Case):
    def edges(self, *shapes, words=(), **more):
        return self.job(self.file("part.svg", svg_file(*shapes, **more)), *words)[0].edges

    def box(self, *shapes, **more):
        return outline_box(self.edges(*shapes, **more))

    def test_smooth_commands_behind_the_other_kind(self):
        """The standard takes the current point for their first control point; svgelements mirrors the other kind's."""
        for smooth, plain in (
            ("M10,10 C10,30 40,30 40,10 T50,10", "M10,10 C10,30 40,30 40,10 Q40,10 50,10"),
            ("M10,10 C10,30 40,30 40,10 T50,10 T58,4", "M10,10 C10,30 40,30 40,10 Q40,10 50,10 Q60,10 58,4"),
            ("M10,10 Q25,39 40,10 S50,1 55,10", "M10,10 Q25,39 40,10 C40,10 50,1 55,10"),
            ("M1,5 S7,1 8,5 T9,9", "M1,5 C1,5 7,1 8,5 Q8,5 9,9"),
            ("M1,5 Q2,9 4,5 T8,5 s1,1 2,2", "M1,5 Q2,9 4,5 Q6,1 8,5 C8,5 9,6 10,7"),
            ("M10,10 C10,30 40,30 40,10 S50,1 55,10", "M10,10 C10,30 40,30 40,10 C40,-10 50,1 55,10"),
            ("M1,5 Q2,9 4,5 T8,5", "M1,5 Q2,9 4,5 Q6,1 8,5"),
            ("M1,3 C1,2 3,4 5,6 L7,8 T9,9", "M1,3 C1,2 3,4 5,6 L7,8 Q7,8 9,9"),
            ("M1,1 L5,5 S7,7 9,5", "M1,1 L5,5 C5,5 7,7 9,5"),
        ):
            self.assertEqual(self.edges(f'<path d="{smooth}"/>'), self.edges(f'<path d="{plain}"/>'), smooth)

    def test_arcs_that_are_as_good_as_straight(self):
        for radius in (1e7, 1e9, 1e12):
            job, said = self.job(self.file("part.svg", svg_file(f'<path d="M1,5 A{radius:g},{radius:g} 0 0 1 51,5"/>')))
            self.assertEqual(job.edges, ((100, 3500, 5100, 3500),))
            w = float(re.search(r"W is ([0-9.]+) hundredths", said)[1])
            sagitta = 100 * 50**2 / (8 * radius)
            self.assertTrue(sagitta <= w <= 3 * sagitta + 1e-6, (radius, w))

    def test_shapes_with_y_upward(self):
        self.assertEqual(self.edges('<line x1="1" y1="2" x2="11" y2="3"/>'), ((100, 3800, 1100, 3700),))
        self.assertEqual(self.edges('<polyline points="1,2 11,3 12,9"/>'), ((100, 3800, 1100, 3700), (1100, 3700, 1200, 3100)))
        self.assertEqual(len(self.edges('<polygon points="1,2 11,3 12,9"/>')), 3)
        self.assertEqual(self.box('<rect x="5" y="10" width="20" height="15"/>'), (500, 1500, 2500, 3000))
        self.assertEqual(self.box('<circle cx="20" cy="10" r="7"/>'), (1300, 2300, 2700, 3700))
        self.assertEqual(self.box('<ellipse cx="20" cy="10" rx="7" ry="3"/>'), (1300, 2700, 2700, 3300))

    def test_rounded_rectangles(self):
        edges = self.edges('<rect x="5" y="10" width="20" height="15" rx="3" ry="2"/>')
        self.assertEqual([len(edge) for edge in edges], [4, 8] * 4)
        self.assertEqual(edges[1], (2200, 3000, 2366, 3000, 2500, 2910, 2500, 2800))
        self.assertEqual(len(self.edges('<rect x="5" y="10" width="20" height="15" rx="99"/>')), 4)

    def test_paths(self):
        path = '<path d="M1 1 h4 v3 l1,1 H2 V30 C 2 35 4 36 6 36 s 3 1 5 1 q 3 0 3 -6 t 3 -6 z m 20 0 l 1 1"/>'
        edges = self.edges(path)
        self.assertEqual([len(edge) for edge in edges], [4, 4, 4, 4, 4, 8, 8, 8, 8, 4, 4])
        self.assertEqual(edges[5], (200, 1000, 200, 500, 400, 400, 600, 400))
        self.assertEqual(edges[-1], (2100, 3900, 2200, 3800))

    def test_arcs_of_paths(self):
        (edge,) = self.edges('<path d="M 10 10 A 5 5 0 0 1 15 15"/>')
        self.assertEqual(edge, (1000, 3000, 1276, 3000, 1500, 2776, 1500, 2500))
        self.assertEqual(self.box('<path d="M10 10a5 5 0 1110 0"/>'), (1000, 3000, 2000, 3500))
        self.assertEqual(self.box('<path d="M10 10A1 1 0 0 0 20 10"/>'), (1000, 2500, 2000, 3000))  # radii grow to reach
        self.assertEqual(self.edges('<path d="M10 10A0 5 0 0 0 20 10"/>'), ((1000, 3000, 2000, 3000),))
        self.assertEqual(self.edges('<path d="M10 10A5 5 0 0 0 10 10L20 10"/>'), ((1000, 3000, 2000, 3000),))
        self.assertEqual(self.box('<path d="M 20 20 A 10 5 90 1 1 20 20.001"/>')[1::2], (1000, 3000))

    def test_arcs_under_any_transform(self):
        """Against the formulas of the SVG standard, its appendix on arcs."""
        chance = random.Random(6)
        for _ in range(60):
            matrix = [round(chance.uniform(-2, 2), 6) for _ in range(6)]
            if abs(matrix[0] * matrix[3] - matrix[1] * matrix[2]) < 0.3:
                continue
            numbers = [round(chance.uniform(1, 20), 4) for _ in range(3)] + [chance.randrange(2), chance.randrange(2)]
            ends = [round(chance.uniform(-10, 10), 4) for _ in range(4)]
            path = f'<path transform="matrix({matrix})" d="M{ends[:2]}A{numbers}{ends[2:]}"/>'.replace("[", " ").replace("]", " ")
            (arc,) = svg.read(svg_file(path).encode(), Wish()).curves
            at = standard_arc(ends, *numbers)
            for step in range(17):
                x, y = at(step / 16)
                across, down = (matrix[i] * x + matrix[i + 2] * y + matrix[i + 4] for i in (0, 1))
                found = arc.point(arc.first + arc.sweep * step / 16)
                self.assertLess(math.dist(found, (100 * across, 4000 - 100 * down)), 1e-5 + arc.doubt, path)

    def test_transforms(self):
        moved = '<g transform="translate(5 5)"><g transform="rotate(90)"><line x1="0" y1="0" x2="10" y2="0"/></g></g>'
        self.assertEqual(self.edges(moved), ((500, 3500, 500, 2500),))
        mirrored = '<path transform="matrix(-1 0 0 1 30 0)" d="M 10 10 A 5 5 0 0 1 15 15"/>'
        self.assertEqual(self.edges(mirrored), ((2000, 3000, 1724, 3000, 1500, 2776, 1500, 2500),))
        middle = 'width="60mm" height="40mm" viewBox="-30 -20 60 40"'
        skewed = self.box('<circle transform="skewX(45)" cx="0" cy="0" r="10"/>', root=middle)
        self.assertEqual(skewed[1::2], (1000, 3000))
        self.assertEqual(skewed[::2], (3000 - 1414, 3000 + 1414))
        flat = self.box('<path transform="skewX(45)" d="M10 0A10 10 0 0 1 -10 0A10 10 0 0 1 10 0z"/>', root=middle)
        self.assertEqual(flat, skewed)

    def test_uses(self):
        kept = '<defs><g id="a"><line x1="0" y1="0" x2="5" y2="0"/></g></defs>'
        used = '<use xlink:href="#a" x="10" y="10"/><use href="#a" transform="translate(0 20)"/>'
        self.assertEqual(self.edges(kept, used), ((1000, 3000, 1500, 3000), (0, 2000, 500, 2000)))

    def test_what_is_not_displayed(self):
        seen = '<line x1="0" y1="0" x2="5" y2="0"/>'
        hidden = f'<g display="none">{seen}</g><g style="display:none"><circle r="5"/></g>'
        self.assertEqual(len(self.edges(hidden, seen)), 1)

    def test_physical_sizes(self):
        line = '<line x1="0" y1="0" x2="6" y2="0"/>'
        for root, length in (
            ('width="6cm" height="4cm" viewBox="0 0 60 40"', 600),
            ('width="6in" height="4in" viewBox="0 0 6 4"', 15240),
            ('width="6mm" height="4mm" viewBox="0 0 600 400"', 6),
            ('width="60mm" viewBox="0 0 60 40"', 600),
            ('width="60mm" height="20mm" viewBox="0 0 60 40"', 300),
            ('width="60mm" height="20mm" viewBox="0 0 60 40" preserveAspectRatio="xMidYMid slice"', 600),
            ('width="60mm" height="20mm" viewBox="0 0 60 40" preserveAspectRatio="none"', 600),
            ('width="432pt" height="288pt" viewBox="0 0 6 4"', 15240),
        ):
            self.assertEqual(self.edges(line, root=root)[0][2] - self.edges(line, root=root)[0][0], length, root)

    def test_units_are_asked_for(self):
        line = '<line x1="0" y1="0" x2="6" y2="0"/>'
        box = 'viewBox="0 0 60 40"'
        for root in ("", 'width="60" height="40"', f'width="60px" height="40px" {box}', box, f'width="100%" height="100%" {box}'):
            self.finding(self.file("part.svg", svg_file(line, root=root)), "--units mm|cm|m|in|ft|px|pt|pc")
            edge = self.edges(line, root=root, words=("--units", "cm"))[0]
            self.assertEqual(edge[2] - edge[0], 6000)
        self.assertEqual(self.edges(line, words=("--units", "in"))[0], (0, 101600, 15240, 101600))

    def test_text_is_left_out(self):
        text = '<text x="1" y="1">Hi <tspan>you</tspan></text>'
        path = self.file("part.svg", svg_file(text, '<line x1="0" y1="0" x2="5" y2="0"/>'))
        self.finding(path, ":2:1: <text>: it makes no edge: convert it to paths; --leave-out text goes on without it")
        _, err = self.job(path, "--leave-out", "text")
        self.assertIn("left out: 1 text", err)
        self.assertIn("no point of what was taken", err)
        alone = self.file("part.svg", svg_file("<text>Hi</text>"))
        self.finding(alone, "nothing in it that makes an edge; left out: 1 text", words=("--leave-out", "text"))

    def test_faults_that_svgelements_passes_over(self):
        for shape in (
            '<path d="M0 0 L10 10 X 5 5"/>',
            '<path d="M0 0 L10"/>',
            '<path d="L10 10"/>',
            '<path d="M0 0 C 1 1 2 2"/>',
            '<path d="M0 0 L"/>',
            '<polyline points="0 0 1"/>',
            '<polyline points="0 0 1 x"/>',
            '<circle cx="5"/>',
            '<ellipse cx="5"/>',
            '<circle r="5em"/>',
            '<circle r="5 mm"/>',
            '<rect width="-5" height="3"/>',
            '<g transform="turn(5)"/>',
            '<g style="transform: scale(2)"/>',
            '<use href="#none"/>',
            '<use href="other.svg#a"/>',
            '<g id="a"><use href="#a"/></g>',
            '<svg width="3" height="3" transform="scale(2)"/>',
            '<svg viewBox="0 0 1"/>',
        ):
            self.finding(self.file("part.svg", svg_file('<line x1="0" y1="0" x2="5" y2="0"/>', shape)), ":3:")

    def test_path_data(self):
        goods = {
            **{"": "", " M1,2": "M", "m-1-2.5.5 3": "ML", "M0 0a1 1 0 0110 0": "MA", "M0 0a1 1 0 01.5.5z": "MAZ", "M0 0zz": "MZZ"},
            "M1e3-2E-1L3 4 5 6": "MLL",
        }
        for good, letters in goods.items():
            self.assertEqual("".join(svg_check.path_letters(good)), letters, good)
        for bad in ("1 2", "M", "M1", "M1 2 3", "M0 0a1 1 0 2 1 1 1", "M0 0L1 2;", "M0 0zm", "M0 0h", "M0 0L nan 1", "M٣ 1", "M5. 1"):
            with self.assertRaises(Fault, msg=bad):
                svg_check.path_letters(bad)

    def test_lost_parts_are_noticed(self):
        path = self.file("part.svg", svg_file('<path d="M0 0L5 5L9 9"/>'))
        with mock.patch("svgelements.Path.__iter__", return_value=iter(())):
            self.finding(path, "<path>: svgelements gives 0 of its 3 lines and curves")
        with mock.patch("svgelements.Path.__init__", side_effect=ValueError("what\ncomes")):
            self.finding(path, "<path>: its path cannot be read: ValueError: what comes")
        self.assertEqual(len(self.edges('<rect width="0" height="5"/><circle r="0"/><path d=""/><line x2="5"/>')), 1)

    def test_entities_are_not_expanded(self):
        bomb = '<!DOCTYPE svg [<!ENTITY a "10"><!ENTITY b "&a;&a;&a;">]>'
        self.finding(self.file("part.svg", svg_file('<circle r="&b;"/>', before=bomb)), "declares an entity")
        outside = '<!DOCTYPE svg [<!ENTITY a SYSTEM "file:///etc/passwd">]>'
        self.finding(self.file("part.svg", svg_file("<text>&a;</text>", before=outside)), "declares an entity")
        wide = svg_file('<circle r="5"/>', before='<?xml version="1.0" encoding="utf-16"?>' + bomb).encode("utf-16")
        self.finding(self.file("part.svg", wide), "declares an entity")
        plain = '<!DOCTYPE svg PUBLIC "-//W3C//DTD SVG 1.1//EN" "http://www.w3.org/Graphics/SVG/1.1/DTD/svg11.dtd">'
        self.assertEqual(len(self.edges('<line x1="0" y1="0" x2="5" y2="0"/>', before=plain)), 1)

    def test_files_that_grow_without_bound(self):
        uses = '<defs><line id="a0" x1="0" y1="0" x2="5" y2="0"/>'
        for level in range(1, 9):
            uses += f'<g id="a{level}">' + f'<use href="#a{level - 1}"/>' * 10 + "</g>"
        self.finding(self.file("part.svg", svg_file(uses + '</defs><use href="#a8"/>')), "more than 10,000 elements")
        self.finding(self.file("part.svg", svg_file("<g>" * 5000 + "</g>" * 5000)), "deeper than")
        long = '<defs><path id="p" d="M0 0' + "l1 1" * 1000 + '"/></defs>' + '<use href="#p"/>' * 30
        self.finding(self.file("part.svg", svg_file(long)), "more than 20,000 lines and curves")
        turns = '<g transform="' + "rotate(1)" * 40_000 + '"><line x2="5"/></g>'
        self.assertEqual(len(self.edges(turns)), 1)
        many = '<path d="M0 0' + "l1 1" * 1_000_000 + '"/>'
        self.finding(self.file("part.svg", svg_file(many)), "more than 1,000,000 bytes")

    def test_numbers_that_are_none(self):
        for shape in ('<circle r="1e999"/>', '<path d="M0 0L1e999 0"/>', '<g transform="scale(1e999)"><circle r="1"/></g>'):
            self.finding(self.file("part.svg", svg_file(shape)))
        self.finding(self.file("part.svg", svg_file('<line x1="0" y1="0" x2="10001" y2="0"/>')), "10,000 mm at most")
        self.finding(self.file("part.svg", svg_file('<circle r="1"/>', root='width="60mm" height="40mm" viewBox="0 0 0 40"')))
        self.finding(self.file("part.svg", svg_file('<circle r="1"/>', root='width="60mm" height="40mm" viewBox="a b"')))
        for box in ("0 0 1e999999999 9", "0 0 9 1e-999999999"):
            self.finding(self.file("part.svg", svg_file('<circle r="1"/>', root=f'width="60mm" height="40mm" viewBox="{box}"')))
        self.finding(self.file("part.svg", svg_file('<circle r="1"/>', root='width="1e999999999mm" viewBox="0 0 9 9"')))

    def test_broken_files(self):
        good = svg_file('<line x1="0" y1="0" x2="5" y2="0"/>')
        for cut in range(5, len(good) - 2, 7):
            status, _, err = ran(self.file("part.svg", good[:cut]), "--reach", "1")
            self.assertEqual(status, 1, err)
        self.finding(self.file("part.svg", "<html><body/></html>"), "no SVG drawing")
        self.finding(self.file("part.svg", "<svg/>"), "--units")
        self.finding(self.file("part.svg", svg_file()), "nothing in it")
        self.finding(self.file("part.svg", b"<svg>\xff\xfe</svg>"), "no XML")


class Verb(Case):
    def test_files_that_are_no_drawings(self):
        for data in ("", "hello", b"\x00\x01\x02", "(job\n)\n", "%PDF-1.4", b"\x89PNG\r\n"):
            self.finding(self.file("part.dxf", data), "no DXF and no SVG drawing")
        self.finding(self.folder / "missing.dxf", status=3)
        self.finding(self.folder, status=3)

    def test_bad_usage(self):
        path = self.file("part.svg", svg_file())
        self.assertEqual(ran(path)[0], 2)
        for reach in ("0", "-1", "1/3", "nan", "inf", "x", "1e999999999", "1e-999999999"):
            self.assertEqual(ran(path, "--reach", reach)[0], 2, reach)
        wrong = {"--units": ["yd"], "--leave-out": ["lines", ",", "text,lines"], "--within": ["0", "0.00001", "11"]}
        for words in (("--split",), ("--json",), *((option, word) for option, given in wrong.items() for word in given)):
            self.assertEqual(ran(path, "--reach", "1", *words)[0], 2, words)

    def test_without_the_packages(self):
        svg_path, dxf_path = self.file("part.svg", svg_file()), self.file("part.dxf", dxf_file(LINE))
        code = (
            "import sys; sys.modules['ezdxf'] = sys.modules['svgelements'] = None\n"
            "from clearance import cli; sys.exit(cli.main(sys.argv[1:]))"
        )
        for path, name in ((svg_path, "svgelements"), (dxf_path, "ezdxf")):
            command = [sys.executable, "-c", code, "from", str(path), "--reach", "1"]
            done = subprocess.run(command, capture_output=True, check=False, cwd=Path(__file__).resolve().parents[1])
            self.assertEqual((done.returncode, done.stdout), (2, b""), done.stderr)
            self.assertIn(f"needs the Python package {name} (Debian: python3-{name}; pip: {name})".encode(), done.stderr)

    def test_another_python_that_has_the_package(self):
        """It is named; python3 of the path here is one that has every package."""
        python = self.file("python3", "#!/bin/sh\nexit 0\n")
        python.chmod(0o755)
        with mock.patch.object(reading.sys, "executable", "/usr/bin/python3"), mock.patch.dict(os.environ, {"PATH": str(self.folder)}):
            self.assertEqual(reading.other_python("json"), str(python))
            with self.assertRaisesRegex(reading.PackageMissing, f"PYTHON={python} clearance"):
                reading.package("no_such_package")
            python.write_text("#!/bin/sh\nexit 1\n")
            self.assertIsNone(reading.other_python("json"))

    def test_layers_and_layouts_are_of_dxf_drawings(self):
        path = self.file("part.svg", svg_file())
        for words in (["--layer", "0"], ["--not-layer", "0"], ["--layout", "Model"]):
            status, out, err = ran(path, "--reach", "1", *words)
            self.assertEqual((status, out), (2, b""), err)
            self.assertIn("are of DXF drawings", err)

    @needs_ezdxf
    def test_a_plate_and_a_place(self):
        path = DRAWINGS / "bracket.dxf"
        job, said = self.job(path, "--plate", "-5", "10.24", "300", "--at", "20", "30.5")
        self.assertEqual((job.x, job.y, job.n, job.m), (-500, 1024, 15, 7))
        self.assertEqual(outline_box(job.edges), (2000, 3050, 14000, 12050))
        self.assertIn("bounds: x from 20 to 140 mm, y from 30.5 to 120.5 mm", said)
        still, _ = self.job(path)
        self.assertEqual(still.reach, job.reach)
        self.assertEqual(job.edges, outline.placed(outline.Outline(still.edges, Fraction(0), 0, 0), (2000, 3050)).edges)
        self.assertEqual(self.job(path, "--plate", "0", "0", "327.68")[0].n, 15)
        self.assertEqual(self.job(path, "--plate", "0", "0", "327.69")[0].n, 16)
        self.finding(path, "10,000 mm at most", words=("--at", "9990", "0"))
        self.assertNotIn("warning", said)
        for place, warning in (("240", "edges go off the plate"), ("206", "edges come closer than the reach to the plate's border")):
            self.assertIn(warning, self.job(path, "--plate", "0", "0", "300", "--at", place, "20")[1])
        for words, said in (
            (["0", "0", "20000"], "the side is 20000 mm, and goes from 0.01 to 10485.76 mm"),
            (["0", "-10001", "9"], "Y is -10001 mm, and goes from -10000 to 10000 mm"),
        ):
            status, out, err = ran(path, "--reach", "2.5", "--plate", *words)
            self.assertEqual((status, out, err), (2, b"", f"clearance: --plate: {said}\n"))
        for words in (["--plate", "0", "0"], ["--plate", "0", "0", "0"], ["--plate", "0", "0", "x"], ["--at", "0.005", "0"]):
            self.assertEqual(ran(path, "--reach", "2.5", *words)[0], 2, words)

    def test_a_drawing_is_not_written_over(self):
        path = self.file("part.svg", svg_file('<path d="M0 0L5 0"/>'))
        before = path.read_bytes()
        self.assertEqual(ran(path, "--reach", "1", "-o", path)[0], 2)
        self.assertEqual(path.read_bytes(), before)

    @needs_svgelements
    def test_what_is_said(self):
        shapes = '<path d="M0 0L5 0L10 0L10 10"/><path d="M20 5L20 5"/><text>x</text>'
        status, out, err = ran(self.file("part.svg", svg_file(shapes)), "--reach", "2.501", "--leave-out", "text")
        self.assertEqual(status, 0, err)
        self.assertEqual(Job.from_sheet(out).reach, 251)
        for sentence in (
            "2 edges of 64: 2 lines, 0 cubics",
            "1 line joined",
            "1 edge without length left out",
            "left out: 1 text",
            "2 ends that meet no other; the widest gap is 14.1422 mm, at (0, 40) mm",
            "bounds: x from 0 to 10 mm, y from 30 to 40 mm",
            "the outline is 10 by 10 mm",
            "W is 0 hundredths (0 mm): no point of what was taken or of the outline",
            "reach: 251 hundredths, 2.501 mm and W rounded up",
        ):
            self.assertIn(sentence, err)

    @needs_svgelements
    def test_json(self):
        path, sheet = self.file("part.svg", svg_file('<circle cx="30" cy="20" r="5.123"/>')), self.folder / "part.sheet"
        status, out, _ = ran(path, "--reach", "2.5", "--json", "-o", sheet)
        told = json.loads(out)
        self.assertEqual(status, 0)
        self.assertEqual((told["files"], told["edges"]["count"], told["loose_ends"], told["widest_gap"]), ([str(sheet)], 3, 0, None))
        self.assertEqual(told["reach_hundredths"], Job.from_sheet(sheet.read_bytes()).reach)
        self.assertEqual(told["reach_hundredths"], 250 + math.ceil(Fraction(told["w_hundredths"])))
        self.assertEqual(Fraction(told["w"]) * 100, Fraction(told["w_hundredths"]))

    @needs_svgelements
    def test_more_than_64_edges_are_split(self):
        corners = " ".join(f"{index / 2:g},{(index % 2) * 10:g}" for index in range(101))
        path = self.file("part.svg", svg_file(f'<polyline points="{corners}"/>'))
        self.finding(path, "100 edges", "--split")
        status, _, err = ran(path, "--reach", "2.5", "--split", "-o", self.folder / "part.sheet")
        self.assertEqual(status, 0, err)
        jobs = [Job.from_sheet((self.folder / f"part-{number}.sheet").read_bytes()) for number in (1, 2)]
        self.assertEqual([len(job.edges) for job in jobs], [64, 36])
        self.assertEqual(len({(job.x, job.y, job.n, job.m, job.reach) for job in jobs}), 1)
        self.assertEqual(jobs[1].edges[0][:2], jobs[0].edges[-1][-2:])
        self.assertIn("100 edges on 2 sheets", err)

    @needs_svgelements
    def test_one_sheet_of_a_split_has_its_number_too(self):
        path = self.file("part.svg", svg_file('<circle r="5"/>'))
        self.assertEqual(ran(path, "--reach", "2.5", "--split", "-o", self.folder / "part.sheet")[0], 0)
        self.assertEqual(sorted(os.listdir(self.folder)), ["part-1.sheet", "part.part", "part.svg"])

    @needs_svgelements
    def test_all_files_are_written_or_none(self):
        corners = " ".join(f"{index / 2:g},{(index % 2) * 10:g}" for index in range(101))
        path = self.file("part.svg", svg_file(f'<polyline points="{corners}"/>'))
        (self.folder / "part-2.sheet").mkdir()
        status, out, err = ran(path, "--reach", "2.5", "--split", "-o", self.folder / "part.sheet", "--json")
        self.assertEqual((status, out), (3, b""), err)
        self.assertEqual(sorted(os.listdir(self.folder)), ["part-2.sheet", "part.svg"])
        self.assertEqual(ran(path, "--reach", "1", "--split", "-o", self.folder / "no" / "part.sheet")[0], 3)

    @needs_svgelements
    def test_too_large_reaches(self):
        path = self.file("part.svg", svg_file('<circle r="5"/>'))
        for reach in ("10000", "9000"):
            status, out, err = ran(path, "--reach", reach)
            self.assertEqual((status, out), (1, b""), err)
            self.assertIn(str(path), err)


class Examples(Case):
    def drawings(self):
        for part in PARTS:
            for reader, package in ((dxf, "ezdxf"), (svg, "svgelements")):
                if HAS[package]:
                    yield DRAWINGS / f"{part}.{'dxf' if reader is dxf else 'svg'}", reader

    def test_stored_sheets_are_what_comes_out(self):
        for path, _ in self.drawings():
            status, out, err = ran(path, "--reach", "2.5")
            self.assertEqual(status, 0, err)
            self.assertEqual(out, Path(f"{path}.sheet").read_bytes(), path.name)
            self.assertIn("closed", err)

    def test_stored_sheets_are_drawn_by_the_library(self):
        for part in PARTS:
            for kind in ("dxf", "svg"):
                job = Job.from_sheet((DRAWINGS / f"{part}.{kind}.sheet").read_bytes())
                self.assertLess(job.reach, 253)
                self.assertTrue(all(job.map().counts().values()))

    def test_both_drawings_of_a_part_give_one_outline(self):
        for part in PARTS:
            both = [Job.from_sheet((DRAWINGS / f"{part}.{kind}.sheet").read_bytes()) for kind in ("dxf", "svg")]
            first, second = ({min(edge, backward(edge)) for edge in job.edges} for job in both)
            self.assertEqual(len(first), len(second))
            for edge in first - second:
                self.assertTrue(any(close(edge, other) or close(edge, backward(other)) for other in second), (part, edge))

    def test_w_holds_and_is_at_most_twice_what_sampling_finds(self):
        for path, reader in self.drawings():
            curves = reader.read(path.read_bytes(), Wish()).curves
            worst = 0.0
            for piece in outline.joined([piece for curve in curves for piece in pieces(curve, 1.0)]):
                edge = edge_of(piece)
                found = sampled(piece_function(piece), bezier_function(edge), 16, 32)
                self.assertLessEqual(found, float(piece.bound(edge)) + SEARCHED, path.name)
                worst = max(worst, found)
            bound = float(outline.outline_of(curves, 1.0).off)
            self.assertLessEqual(worst, bound + SEARCHED, path.name)
            self.assertLessEqual(bound, 2 * worst, path.name)

    def test_the_drawings_are_those_that_make_makes(self):
        spec = importlib.util.spec_from_file_location("make", DRAWINGS / "make.py")
        make = importlib.util.module_from_spec(spec)
        spec.loader.exec_module(make)
        for part, (contours, width, height) in make.PARTS.items():
            self.assertEqual((DRAWINGS / f"{part}.dxf").read_text("ascii"), make.dxf(contours(), part == "gear"))
            self.assertEqual((DRAWINGS / f"{part}.svg").read_text("ascii"), make.svg(contours(), width, height))


def backward(edge):
    return tuple(number for at in range(len(edge) - 2, -1, -2) for number in edge[at : at + 2])


def close(edge, other):
    return len(edge) == len(other) and all(abs(a - b) <= 1 for a, b in zip(edge, other))


if __name__ == "__main__":
    unittest.main()
