"""Advice: boxes that are exact, plates that hold them and are the smallest, and jobs that the library accepts."""

import json
import random
import unittest
from fractions import Fraction

from clearance import Job, Refused, advice, bounds, library, reasons, sheets, trees
from tests.samples import EDGE, EXAMPLES, LINE, SHEET, STORED, Folder, command, run_into_closed_pipe


def value(controls, t):
    b0, b1, b2, b3 = controls
    w = 1 - t
    return b0 * w**3 + 3 * b1 * t * w * w + 3 * b2 * t * t * w + b3 * t**3


def peak(controls):
    """The greatest value of a coordinate, nearly and from below: the best of some fractions, then bisected."""
    steps = 32
    best = max(range(steps + 1), key=lambda step: value(controls, Fraction(step, steps)))
    low, high = max(best - 1, 0) / steps, min(best + 1, steps) / steps
    for _ in range(80):
        left, right = low + (high - low) / 3, high - (high - low) / 3
        low, high = (left, high) if value(controls, left) < value(controls, right) else (low, right)
    return max(value(controls, best / steps), value(controls, low))


class Boxes(unittest.TestCase):
    def test_figures(self):
        # Turning where the curve is a whole number, a third, a root; not turning; a parabola; flat.
        self.assertEqual(bounds.cubic_range((0, -400, -400, 0)), (-300, 0))
        self.assertEqual(bounds.cubic_range((0, 3, 0, 0)), (0, 2))
        self.assertEqual(bounds.cubic_range((0, 9, -9, 0)), (-3, 3))
        self.assertEqual(bounds.cubic_range((0, 1, 2, 12)), (0, 12))
        self.assertEqual(bounds.cubic_range((0, 6, 6, 0)), (0, 5))
        self.assertEqual(bounds.cubic_range((0, 8, 8, 0)), (0, 6))
        self.assertEqual(bounds.cubic_range((0, 2, 4, 6)), (0, 6))
        self.assertEqual(bounds.cubic_range((5, 5, 5, 5)), (5, 5))
        self.assertEqual(bounds.cubic_range((0, 10, -9, 1)), (-3, 4))

    def test_edges(self):
        self.assertEqual(bounds.edge_box((3, -4, -1, 7)), (-1, -4, 3, 7))
        self.assertEqual(bounds.edge_box((0, 0, 0, -400, 1000, -400, 1000, 0)), (0, -300, 1000, 0))
        self.assertEqual(bounds.outline_box([(3, -4, -1, 7), (0, 0, 0, 9)]), (-1, -4, 3, 9))

    def test_random_cubics(self):
        chance = random.Random(5)
        for _ in range(600):
            size = chance.choice((1, 2, 5, 30, 1_000, 1_000_000))
            controls = [chance.randint(-size, size) for _ in range(4)]
            low, high = bounds.cubic_range(controls)
            for step in range(17):
                self.assertTrue(low <= value(controls, Fraction(step, 16)) <= high, controls)
            # Less than 1 is left between the curve and its box, but for the float's error.
            self.assertLess(high - peak(controls), 1 + 1e-6, controls)
            self.assertLess(peak([-z for z in controls]) * -1 - low, 1 + 1e-6, controls)


class Plates(unittest.TestCase):
    def holds(self, plate, edges, reach):
        x, y, n = plate
        left, low, right, high = bounds.outline_box(edges)
        side = 1 << n
        return x <= left - reach and y <= low - reach and right + reach <= x + side and high + reach <= y + side

    def test_figures(self):
        self.assertEqual(advice.plate_for([(0, 0, 0, 0)], 4), (-4, -4, 3))
        self.assertEqual(advice.plate_for([(0, 0, 0, 0)], 5), (-8, -8, 4))
        self.assertEqual(advice.plate_for([(0, 0, 1, 0)], 4), (-8, -8, 4))
        self.assertEqual(advice.plate_for([(0, 0, 1000, 500)], 12), (-12, -262, 10))
        self.assertEqual(advice.plate_for([(0, 0, 1000, 500)], 13), (-524, -774, 11))

    def test_random_outlines(self):
        chance = random.Random(9)
        for _ in range(500):
            size = chance.choice((1, 10, 1_000, 200_000))
            edges = [[chance.randint(-size, size) for _ in range(chance.choice((4, 8)))] for _ in range(3)]
            reach = chance.randint(1, size)
            x, y, n = advice.plate_for(edges, reach)
            self.assertTrue(self.holds((x, y, n), edges, reach))
            left, low, right, high = bounds.outline_box(edges)
            self.assertLess(1 << (n - 1), max(right - left, high - low) + 2 * reach)
            # In its middle, up to a half.
            self.assertLessEqual(abs(2 * x + (1 << n) - left - right), 1)
            self.assertLessEqual(abs(2 * y + (1 << n) - low - high), 1)

    def test_the_lowest_corner(self):
        edges = [(-999_990, 0, -999_990, 100)]
        plate = advice.plate_for(edges, 10)
        self.assertEqual(plate, (-1_000_000, -14, 7))
        self.assertTrue(self.holds(plate, edges, 10))
        for edges in ([(-999_990, 0, 0, 0)], [(0, -999_990, 0, 0)]):
            with self.assertRaisesRegex(advice.Unadvisable, "below -10000 mm"):
                advice.plate_for(edges, 11)

    def test_the_largest_plate(self):
        self.assertEqual(advice.plate_for([(0, 0, 2**20 - 200_000, 0)], 100_000)[2], 20)
        with self.assertRaisesRegex(advice.Unadvisable, "10485.77 mm wide"):
            advice.plate_for([(0, 0, 2**20 - 199_999, 0)], 100_000)

    def test_more_edges_than_a_job_has(self):
        self.assertEqual(advice.plate_for([(0, 0, 0, 0)] * 100, 4), (-4, -4, 3))
        with self.assertRaisesRegex(advice.Unadvisable, "no edges"):
            advice.plate_for([], 4)


class Jobs(unittest.TestCase):
    def is_least(self, job, store=library.PROGRAM_STORE):
        """The library accepts the job, but with a grain below it does not, where that is half a cell's side still."""
        self.assertEqual(len(job.map(store).letters), 1 << 2 * (job.n - job.m))
        if job.grain > max(1, (1 << job.m) // 2):
            with self.assertRaises(Refused):
                Job(job.x, job.y, job.n, job.m, job.reach, job.edges, job.grain - 1).map(store)

    def test_every_sheet_that_can_be_advised(self):
        advised = searched = 0
        for path in EXAMPLES + STORED:
            data = path.read_bytes()
            if library.read(data)[0] in (1, 2) or sheets.outline_faults(sheets.read_sheet(data)):
                continue
            sheet = sheets.read_sheet(data)
            try:
                job = advice.advised(sheet.edge_values(), sheet.reach.value)
            except advice.Unadvisable as reason:
                self.assertRegex(str(reason), "mm wide|below|no grain", path.name)
                continue
            self.assertEqual((job.m, job.edges, job.reach), (max(0, job.n - 8), sheet.edge_values(), sheet.reach.value))
            self.assertEqual(reasons.refusal(job.to_sheet()), 0, path.name)
            self.is_least(job)
            advised += 1
            searched += job.grain > max(1, (1 << job.m) // 2)
        self.assertGreater(advised, 150)
        self.assertGreater(searched, 5)

    def test_a_given_plate_and_store(self):
        edges = [(0, 0, 9_000, 5_400, -3_000, 5_400, 6_000, 0)]
        job = advice.advised(edges, 250, (-1_000, -2_000, 13), 1_000)
        self.assertEqual((job.x, job.y, job.n, job.m), (-1_000, -2_000, 13, 5))
        self.is_least(job, 1_000)
        self.assertGreater(job.grain, 16)

    def test_none(self):
        wild = [(10**6, 10**6, -(10**6), -(10**6), -(10**6), -(10**6), 10**6, 10**6)]
        for edges, reach, plate, store, cause in (
            ([], 4, None, 11, "no edges"),
            ([], 4, (0, 0, 4), 11, "no edges"),
            ([(0, 0, 0, 0)] * 65, 4, None, 11, "65 edges"),
            ([(0, 0, 0, 0)], 4, None, 10, "no grain"),
            (wild * 64, 4, (0, 0, 20), library.PROGRAM_STORE, "no grain"),
            ([(0, 0, 0, 0)], 0, None, 11, "out of its range"),
            ([(0, 0, 0, 0)], 4, (0, 0, 21), 11, "out of its range"),
            ([(0, 0, 10**6 + 1, 0)], 4, (0, 0, 20), 11, "out of its range"),
        ):
            with self.subTest(cause=cause), self.assertRaisesRegex(advice.Unadvisable, cause):
                advice.advised(edges, reach, plate, store)


class Advise(unittest.TestCase):
    def setUp(self):
        self.folder = Folder()
        self.addCleanup(self.folder.cleanup)
        self.sheet = self.folder.file("sheet", SHEET)

    def test_comparison(self):
        status, text, error = command("advise", self.sheet)
        self.assertEqual((status, error), (0, ""))
        rows = {line[:10].strip(): (line[10:46].strip(), line[46:]) for line in text.splitlines()[1:]}
        self.assertEqual(rows[""], ("now", "advised"))
        self.assertEqual(rows["plate"], ("0.16 mm at (-0.08, -0.08)", "0.08 mm at (-0.04, -0.04)"))
        self.assertEqual(rows["cell"], ("0.02 mm", "0.01 mm"))
        self.assertEqual(rows["band E"], ("0.06 mm", "0.045 mm"))

    def test_as_data(self):
        status, text, _ = command("advise", "--json", "-", stdin=SHEET.replace(EDGE, b"(line (0 0) (999999 0))\n"))
        told = json.loads(text)
        self.assertEqual(status, 0)
        self.assertEqual((told["now"]["refused"], told["now"]["nodes"]), (5, None))
        self.assertEqual((told["advised"]["refused"], told["advised"]["side_mm"]), (0, 10485.76))
        self.assertEqual(told["advised"]["nodes"], trees.nodes([(0, 0, 999_999, 0)], told["advised"]["grain"]))

    def test_write(self):
        status, text, error = command("advise", "--write", self.sheet)
        self.assertEqual((status, error), (0, ""))
        job = Job.from_sheet(text.encode())
        self.assertEqual((job.x, job.y, job.n, job.m, job.grain), (-4, -4, 3, 0, 1))
        for words in (("--write", "-o"), ("-o",)):
            out = self.folder.file("out", b"old")
            self.assertEqual(command("advise", self.sheet, *words, out), (0, "", ""))
            self.assertEqual(out.read_bytes(), text.encode())

    def test_sheets_with_a_wrong_plate_cell_or_grain(self):
        for old, new in (
            (b"(cell 1)", b"(cell 5)"),
            (b"(cell 1)", b"(cell 9999999)"),
            (b"(cell 1)", b"(cell -1)"),
            (b"(plate -8 -8 4)", b"(plate -9999999 9999999 9999999)"),
            (b"(grain 1)", b"(grain 0)"),
            (b"(grain 1)", b"(grain 9999999)"),
        ):
            data = SHEET.replace(old, new)
            for words in ((), ("--json",), ("--write",)):
                status, text, error = command("advise", "-", *words, stdin=data)
                self.assertEqual((status, error), (0, ""), new)
            self.assertEqual(text, command("advise", "--write", self.sheet)[1])

    def test_sheets_that_are_wrong(self):
        for old, new, told in (
            (b"(cell 1)", b"(sell 1)", "-:3:2: refused 1 (form): "),
            (EDGE, b"", "-:6:1: refused 2 (edges): "),
            (EDGE, LINE * 65, "-:70:1: refused 2 (edges): "),
            (b"(reach 4)", b"(reach 0)", "-:4:8: refused 3 (range): the reach is 0"),
            (b"(edge (0 0)", b"(edge (0 1000001)", "-:6:10: refused 3 (range): y of control point b0 of edge 0 is 1000001"),
            (EDGE, b"(line (-1000000 0) (1000000 0))\n", "-: there is no advice: the outline with its reach is 20000.08 mm wide"),
        ):
            # A plate that is out of range stands in front, and is no reason.
            data = SHEET.replace(b"-8 -8 4", b"-8 -8 99").replace(old, new)
            out = self.folder.file("out", b"old")
            status, text, error = command("advise", "-", "-o", out, stdin=data)
            self.assertEqual((status, text, out.read_bytes()), (1, "", b"old"))
            self.assertTrue(error.startswith("clearance: " + told), error)

    def test_usage(self):
        self.assertIn("clearance advise part.sheet", command("advise", "--help")[1])
        for words in ((), (self.sheet, self.sheet), (self.sheet, "--json", "--write"), (self.sheet, "-o")):
            status, text, _ = command("advise", *words)
            self.assertEqual((status, text), (2, ""))

    def test_unreadable_and_unwritable(self):
        self.assertEqual(command("advise", "no such sheet")[0], 3)
        self.assertEqual(command("advise", self.sheet, "-o", self.folder.name + "/none/out")[:2], (3, ""))
        self.assertEqual(run_into_closed_pipe("advise", self.sheet), (3, ""))


if __name__ == "__main__":
    unittest.main()
