"""The module's calls held to what is stored for the C calls: sheets, maps, points; what it lends, and what it is refused with."""

import os
import pickle
import re
import subprocess
import sys
import tempfile
import unittest
from decimal import Decimal
from fractions import Fraction
from math import isqrt
from pathlib import Path

import clearance
from clearance import Job, Refused, joined, lengths, library
from clearance.refusals import WORDS

from .stored import MAPS, SHEETS, TOP, examples, refusal_in, stored

SAMPLE = Job(-8, -8, 4, 1, 4, [(0, 0) * 4], 1)


def refusal(call, *arguments):
    """The number that a call is refused with, or 0."""
    try:
        call(*arguments)
    except Refused as refused:
        return refused.number
    return 0


class Stored(unittest.TestCase):
    def test_sheets(self):
        for name, sheet, written in stored(SHEETS):
            with self.subTest(name):
                number = refusal_in(written)
                self.assertEqual(refusal(Job.from_sheet, sheet), number)
                if not number:
                    self.assertEqual(Job.from_sheet(sheet).to_sheet(), written)

    def test_maps(self):
        for name, sheet, answer in [*stored(MAPS), *examples()]:
            with self.subTest(name):
                number = refusal_in(answer)
                if number in (1, 2, 3, 4):
                    self.assertEqual(refusal(Job.from_sheet, sheet), number)
                    continue
                job = Job.from_sheet(sheet)
                self.assertEqual(refusal(job.map, library.PROGRAM_STORE), number)
                if not number:
                    drawn = job.map()
                    self.assertEqual(drawn.text(), answer)
                    self.assertEqual(drawn, job.map(drawn.nodes * library.NODE_NUMBERS))
                    self.assertEqual(refusal(job.map, drawn.nodes * library.NODE_NUMBERS - 1), 6)
                if number == 6:
                    self.assertGreater(job.map().nodes * library.NODE_NUMBERS, library.PROGRAM_STORE)

    def test_points(self):
        """The ten points that each stored job is asked for, with its own store."""
        for name, sheet, answer in stored("crates/point_cases"):
            number = refusal(lambda: Job.from_sheet(sheet).map())
            if number:
                self.assertEqual(refusal_in(answer.splitlines(True)[0]), number, name)
                continue
            job = Job.from_sheet(sheet)
            place = [*job.edges[0], 0, 0, 0, 0][:8]
            controls, most = zip(place[::2], place[1::2]), 10**6
            spots = [(0, 0), (3, 4), (job.x, job.y), *controls, (most, -most), (most + 1, 0), (0, -most - 1)]
            drawn = job.drawn()
            for spot, line in zip(spots, answer.decode().splitlines()):
                x, y = (Fraction(number, 100) for number in spot)
                with self.subTest(name, spot=spot):
                    if line == "(refused 3)":
                        self.assertEqual(refusal(drawn.point, x, y), 3)
                        continue
                    found = drawn.point(x, y)
                    stored_numbers = tuple(map(int, re.match(r"\(point (\d+) (\d+) (\d+)\)", line).groups()))
                    self.assertEqual((found.lo_squared, found.hi_squared, found.edge), stored_numbers)


class Numbers(unittest.TestCase):
    def test_a_job_from_numbers(self):
        job = Job(0, 0, 6, 2, 9, [(0, 0, 9, 0), (9, 0, 9, 9, 0, 9, 0, 0)])
        sheet = b"(job\n(plate 0 0 6)\n(cell 2)\n(reach 9)\n(line (0 0) (9 0))\n(edge (9 0) (9 9) (0 9) (0 0))\n)\n"
        self.assertEqual(job.to_sheet(), sheet)
        self.assertEqual(Job.from_sheet(sheet), job)

    def test_what_is_no_job(self):
        for edges in [[(0, 0)], [(0,) * 9], [(0, 0, 0, 0.5)], [(0, 0, 0, True)], [(0, 0, 0, 2**31)]]:
            with self.subTest(edges), self.assertRaises(ValueError):
                Job(0, 0, 4, 1, 4, edges)

    def test_refusals(self):
        def job(**changed):
            return Job(**{**{"x": 0, "y": 0, "n": 4, "m": 1, "reach": 4, "edges": [(0, 0, 5, 5)]}, **changed})

        self.assertEqual(refusal(Job.from_sheet, b""), 1)
        self.assertEqual(refusal(job(edges=[]).to_sheet), 2)
        self.assertEqual(refusal(job(edges=[(0, 0, 5, 5)] * 65).map), 2)
        self.assertEqual(refusal(job(reach=0).map), 3)
        self.assertEqual(refusal(job(x=2**31 - 1).to_sheet), 3)
        self.assertEqual(refusal(job(m=5).map), 4)
        long_line = job(edges=[(0, 0, 999_999, 0)], grain=488)
        self.assertEqual(refusal(long_line.map), 5)
        self.assertEqual(refusal(job(edges=[(0, 0, 999_999, 0)], grain=489).map, library.PROGRAM_STORE), 6)
        self.assertEqual(refusal(job(edges=[(0, 0, 999_999, 0)], grain=489).map), 0)
        self.assertEqual(refusal(job().point, 10_000, 0), 0)
        self.assertEqual(refusal(job().point, 0, "10000.01"), 3)
        self.assertEqual(refusal(job().point, 10**40, 0), 3)
        for number, word in WORDS.items():
            told = Refused(number)
            self.assertEqual((told.number, told.word), (number, word))
            self.assertIn(told.cause, str(told))
            self.assertEqual(pickle.loads(pickle.dumps(told)).number, number)

    def test_what_is_no_sheet_point_or_store(self):
        for wrong in (10**9, "(job\n"):
            with self.assertRaises(TypeError):
                Job.from_sheet(wrong)
        for store in (-1, 2**40, 1.5, True):
            with self.assertRaises(ValueError):
                SAMPLE.map(store)
        for spots in (["12"], [("1_0", 0)], [(1,)], [(1, 2, 3)]):
            with self.assertRaises(ValueError):
                SAMPLE.points(spots)
        for maps in ([], iter([])):
            with self.assertRaises(ValueError):
                joined(maps)

    def test_numbers_of_another_kind(self):
        """Whole numbers that are no int of Python's own, as NumPy has them."""

        class Number:
            def __index__(self):
                return 5

        self.assertEqual(Job(0, 0, 4, 1, Number(), [(0, 0, Number(), 5)]), Job(0, 0, 4, 1, 5, [(0, 0, 5, 5)]))

    def test_a_map_and_its_places(self):
        drawn = Job.from_sheet((TOP / "examples" / "bracket.sheet").read_bytes()).map()
        self.assertEqual((drawn.side, drawn.nodes), (64, 1008))
        self.assertEqual(sum(drawn.counts().values()), 64 * 64)
        self.assertEqual(drawn.at(5, 7), drawn.rows[7][5])
        with self.assertRaises(IndexError):
            drawn.at(64, 0)
        sample = SAMPLE.map()
        self.assertEqual((sample.corner, sample.cell), ((Decimal("-0.08"), Decimal("-0.08")), Decimal("0.02")))
        self.assertEqual((sample.at(3, 3), sample.at(2, 3), sample.at(0, 0)), ("I", "D", "C"))

    def test_an_array(self):
        try:
            import numpy
        except ImportError:
            self.skipTest("NumPy is not there")
        array = SAMPLE.map().array()
        self.assertEqual(array.shape, (8, 8))
        self.assertEqual(int((array == ord("I")).sum()), 4)

    def test_many_points_are_each_alone(self):
        drawn = Job.from_sheet((TOP / "examples" / "washer.sheet").read_bytes()).drawn()
        spots = [(Fraction(x, 4), Fraction(3 * x, 100)) for x in range(600)]
        self.assertEqual(drawn.points(spots), [drawn.point(*spot) for spot in spots])
        self.assertEqual(drawn.points([]), [])

    def test_joined(self):
        one, other = Job(0, 0, 6, 2, 9, [(10, 10, 50, 10)]), Job(0, 0, 6, 2, 9, [(10, 40, 50, 60)])
        both = joined([one.map(), other.map()])
        for a, b, c in zip(one.map().letters, other.map().letters, both.letters):
            wanted = "I" if ord("I") in (a, b) else "C" if a == b == ord("C") else "D"
            self.assertEqual(chr(c), wanted)
        with self.assertRaises(ValueError):
            joined([one.map(), SAMPLE.map()])


class Lengths(unittest.TestCase):
    def test_hundredths(self):
        for length in ["12.34", 12.34, Decimal("12.34"), Fraction(1234, 100)]:
            self.assertEqual(lengths.hundredths(length), 1234)
        self.assertEqual(lengths.hundredths(-3), -300)
        self.assertEqual(lengths.hundredths("1e2"), 10_000)
        endless = ["1e999999999", "1e-999999999", Decimal("1e999999999")]
        for length in [*endless, None, [], "12.345", 0.1 + 0.2, float("nan"), float("inf"), "x", "", "1e400x"]:
            with self.subTest(length), self.assertRaises(ValueError):
                lengths.hundredths(length)

    def test_bounds_stay_bounds(self):
        """Rounded down and up by less than a unit of the last place, compared as squares of whole numbers."""
        for squared in [0, 1, 2, 3, 255, 256, 6400, 2560000, 2560001, 21999044, 10**13 + 7, 2**62 + 12345]:
            down, up = (int(root.scaleb(4)) for root in (lengths.root_down(squared), lengths.root_up(squared)))
            # root / 10^4 mm is root * 1600 / 10^4 fine units
            self.assertLessEqual((down * 1600) ** 2, squared * 10**8)
            self.assertGreater(((down + 1) * 1600) ** 2, squared * 10**8)
            self.assertGreaterEqual((up * 1600) ** 2, squared * 10**8)
            self.assertTrue(up == 0 or ((up - 1) * 1600) ** 2 < squared * 10**8)
            self.assertEqual(isqrt(squared) ** 2 == squared and isqrt(squared) * 10**4 % 1600 == 0, down == up)


class Loading(unittest.TestCase):
    def loaded(self, path):
        """What importing and reading says with this library."""
        code = "import clearance; clearance.Job(0, 0, 4, 1, 4, [(0, 0, 5, 5)]).map()"
        environment = {**os.environ, "CLEARANCE_LIBRARY": str(path), "PYTHONPATH": str(TOP / "python")}
        done = subprocess.run([sys.executable, "-c", code], env=environment, capture_output=True, text=True, check=False)
        return done.returncode, done.stderr

    def built(self, folder, version):
        source = Path(folder) / "version.c"
        source.write_text(f"#include <stdint.h>\nuint64_t clearance_version(void) {{ return UINT64_C({version}); }}\n")
        target = Path(folder) / "libclearance.so.1"
        subprocess.run(["cc", "-shared", "-fPIC", "-o", target, source], check=True)
        return target

    def test_the_right_one(self):
        self.assertEqual(self.loaded(library.places()[-1]), (0, ""))

    def test_none(self):
        code, said = self.loaded("/nowhere/libclearance.so.1")
        self.assertEqual(code, 1)
        self.assertIn("LibraryMissing: the library could not be loaded", said)

    def test_other_rows_nodes_and_versions(self):
        """A library that tells of other rows, other nodes or another major version is not called."""
        with tempfile.TemporaryDirectory() as folder:
            for version, told in [
                (51_911_001_000_000, "519 numbers a job and 11 a node"),
                (58_307_001_000_000, "583 numbers a job and 7 a node"),
                (58_311_002_000_000, "2.0.0"),
            ]:
                code, said = self.loaded(self.built(folder, version))
                self.assertEqual(code, 1)
                self.assertIn("LibraryMissing", said)
                self.assertIn(told, said)

    def test_a_library_without_the_functions(self):
        with tempfile.TemporaryDirectory() as folder:
            code, said = self.loaded(self.built(folder, library.VERSION_NUMBER))
            self.assertEqual(code, 1)
            self.assertIn("lacks a function", said)

    def test_the_headers_numbers(self):
        """The numbers that the module lends by are the header's."""
        header = (TOP / "include/clearance.h").read_text()
        sizes = ["SHEET_READ_MOST", "SHEET_WRITTEN_MOST", "CELLS_MOST", "STORE_MOST", "SPOTS_MOST", "EDGES_MOST"]
        for name in [*sizes, "NODE_NUMBERS", "PLACE_NUMBERS", "LINE_NUMBERS"]:
            self.assertEqual(int(re.search(rf"#define CLEARANCE_{name} (\d+)", header)[1]), getattr(library, name), name)
        for name in ["PLACES", "MARKS", "NEAREST_NUMBERS"]:
            self.assertEqual(int(re.search(rf"CLEARANCE_{name} = (\d+)", header)[1]), getattr(library, name), name)
        self.assertEqual(library.MARKS + library.EDGES_MOST, library.JOB_NUMBERS)
        self.assertEqual(clearance.__version__, "{}.{}.{}".format(library.MAJOR, library.MINOR, library.PATCH))


if __name__ == "__main__":
    unittest.main()
