"""Clear rectangles: the fast way against trying all of them, and the verb."""

import itertools
import json
import random
import unittest
from fractions import Fraction

from clearance.commands import rects
from clearance.job import Job
from clearance.rectangles import Rectangle, maximal
from tests.samples import EXAMPLES, MAP, SHEET, Folder, command


def brute(rows):
    """Every rectangle is tried; one is maximal if no row or column beside it can be added."""
    side = len(rows)

    def clear(column, row, columns, up):
        inside = 0 <= column and 0 <= row and column + columns <= side and row + up <= side
        return inside and all(rows[y][x] == "C" for x in range(column, column + columns) for y in range(row, row + up))

    found = []
    for x, y, w, h in itertools.product(range(side), range(side), range(1, side + 1), range(1, side + 1)):
        grown = [(x - 1, y, w + 1, h), (x, y - 1, w, h + 1), (x, y, w + 1, h), (x, y, w, h + 1)]
        if clear(x, y, w, h) and not any(clear(*larger) for larger in grown):
            found.append(Rectangle(x, y, w, h))
    return sorted(found, key=lambda r: (-r.columns * r.rows, r.row, r.column, -r.columns))


class Rectangles(unittest.TestCase):
    def test_against_all_rectangles(self):
        chance = random.Random(7)
        for side, count, share in [(1, 8, 0.5), (2, 40, 0.5), (4, 60, 0.6), (4, 60, 0.85), (8, 12, 0.7), (8, 12, 0.92)]:
            for _ in range(count):
                rows = ["".join("C" if chance.random() < share else chance.choice("ID") for _ in range(side)) for _ in range(side)]
                self.assertEqual(maximal(rows), brute(rows), rows)

    def test_all_or_nothing(self):
        for side in (1, 2, 256):
            self.assertEqual(maximal(["C" * side] * side), [Rectangle(0, 0, side, side)])
            self.assertEqual(maximal(["D" * side] * side), [])

    def test_many(self):
        """Between two descending stairs each step meets each: measured, every one of the many is found, and in time."""
        rows = ["".join("C" if column + row < 256 else "I" for column in range(256)) for row in range(256)]
        found = maximal(rows)
        self.assertEqual({(one.column, one.row, one.columns + one.rows) for one in found}, {(0, 0, 257)})
        self.assertEqual(len(found), 256)
        chance = random.Random(3)
        rows = ["".join(chance.choice("CCCCCCCCI") for _ in range(256)) for _ in range(256)]
        found = maximal(rows)
        self.assertEqual(len(set(found)), len(found))

    def test_holds(self):
        one = Rectangle(3, 4, 5, 2)
        self.assertTrue(one.holds(5, 2) and one.holds(2, 5) and one.holds(Fraction(9, 2), 2))
        self.assertFalse(one.holds(3, 3) or one.holds(5, Fraction(201, 100)) or one.holds(6, 1))


class Rects(unittest.TestCase):
    def setUp(self):
        self.folder = Folder()
        self.addCleanup(self.folder.cleanup)
        self.sheet = self.folder.file("sheet", SHEET)
        self.map = self.folder.file("map", MAP)

    def rects(self, *arguments, **options):
        return command("rects", *arguments, **options)

    def test_the_sample(self):
        status, told, error = self.rects(self.sheet, self.map)
        self.assertEqual((status, error), (0, ""))
        lines = [line.split() for line in told.splitlines()]
        self.assertEqual(told.splitlines()[0], "4 clear rectangles:")
        # Columns and rows of 0.02 mm from -0.08 on.
        self.assertEqual(lines[2], ["0", "0", "8", "2", "-0.08", "-0.08", "0.16", "0.04", "0.0064"])
        self.assertEqual(lines[3], ["0", "0", "2", "8", "-0.08", "-0.08", "0.04", "0.16", "0.0064"])
        self.assertEqual(lines[4], ["6", "0", "2", "8", "0.04", "-0.08", "0.04", "0.16", "0.0064"])
        self.assertEqual(lines[5], ["0", "6", "8", "2", "-0.08", "0.04", "0.16", "0.04", "0.0064"])
        self.assertEqual(len(lines), 6)

    def test_without_a_map_the_library_draws_it(self):
        self.assertEqual(self.rects(self.sheet), self.rects(self.sheet, self.map))
        for path in EXAMPLES:
            rows = Job.from_sheet(path.read_bytes()).map().rows
            status, told, _ = self.rects(path, "--json", "--all")
            found = maximal(rows)
            self.assertEqual(status, 0 if found else 1)
            if found:
                answer = json.loads(told)
                self.assertEqual(answer["count"], len(found))
                cells = [tuple(one[name] for name in ("column", "row", "columns", "rows")) for one in answer["rectangles"]]
                self.assertEqual(cells, [(one.column, one.row, one.columns, one.rows) for one in found])

    def test_how_many(self):
        self.assertEqual(self.rects(self.sheet, "--most", 2)[1].splitlines()[0], "4 clear rectangles; the first 2:")
        answer = json.loads(self.rects(self.sheet, "--most", 1, "--json")[1])
        self.assertEqual(answer["count"], 4)
        self.assertEqual(
            answer["rectangles"],
            [
                {
                    "column": 0,
                    "row": 0,
                    "columns": 8,
                    "rows": 2,
                    "x_mm": -0.08,
                    "y_mm": -0.08,
                    "width_mm": 0.16,
                    "height_mm": 0.04,
                    "area_mm2": 0.0064,
                }
            ],
        )
        bracket = next(path for path in EXAMPLES if path.stem == "bracket")
        self.assertEqual(len(self.rects(bracket)[1].splitlines()), 2 + 20)
        whole = self.rects(bracket, "--all")[1].splitlines()
        self.assertEqual(whole[0], f"{len(whole) - 2} clear rectangles:")
        self.assertGreater(len(whole), 2 + 20)

    def test_a_part_to_hold(self):
        self.assertIn("4 clear rectangles for a part of 0.16 by 0.04 mm:", self.rects(self.sheet, "--holds", "0.16", "0.04")[1])
        self.assertEqual(self.rects(self.sheet, "--holds", "0.04", "0.16")[0], 0)
        status, told, error = self.rects(self.sheet, "--holds", "0.0400001", "0.1")
        self.assertEqual((status, told), (1, ""))
        self.assertEqual(error, f"clearance: {self.sheet}: there is no clear rectangle for a part of 0.0400001 by 0.1 mm\n")

    def test_none(self):
        none = self.folder.file("none", MAP.replace(b"C", b"D"))
        for option in ([], ["--json"]):
            status, told, error = self.rects(self.sheet, none, *option)
            self.assertEqual((status, told, error), (1, "", f"clearance: {none}: there is no clear rectangle\n"))

    def test_what_cannot_be_used(self):
        self.assertEqual(self.rects(self.sheet, self.folder.file("m", MAP[:-1]))[:2], (1, ""))
        self.assertEqual(self.rects("no such sheet")[:2], (3, ""))
        self.assertEqual(self.rects("-", self.map, stdin=SHEET), self.rects(self.sheet, self.map))
        for words in [
            (),
            ("-", "-"),
            ("--most", "0", self.sheet),
            ("--most", "3", "--all", self.sheet),
            ("--holds", "1", self.sheet),
            ("--holds", "1", "0", self.sheet),
            ("--holds", "1", "nan", self.sheet),
            ("--holds", "1", "-2", self.sheet),
            ("--holds", "1", "1e999999999", self.sheet),
        ]:
            with self.subTest(words):
                self.assertEqual(self.rects(*words)[:2], (2, ""))


class Stock(unittest.TestCase):
    """Cells that do not lie wholly on the stock are not clear."""

    def test_cells_on_the_stock(self):
        job = Job.from_sheet(SHEET)
        rows = ["C" * 8] * 8
        for stock, wanted in [
            ((-8, -8, 16, 16), Rectangle(0, 0, 8, 8)),
            ((-8, -8, 15, 16), Rectangle(0, 0, 7, 8)),
            ((-7, -8, 16, 9), Rectangle(1, 0, 7, 4)),
            ((-100, -4, 200, 4), Rectangle(0, 2, 8, 2)),
        ]:
            self.assertEqual(maximal(rects.on_stock(job, rows, stock)), [wanted])
        self.assertEqual(maximal(rects.on_stock(job, rows, (8, 8, 9, 9))), [])

    def test_through_the_command(self):
        place = Folder()
        self.addCleanup(place.cleanup)
        sheet = place.file("s", SHEET)
        status, out, _ = command("rects", sheet, "--stock", "-0.08", "-0.08", "0.16", "0.04", "--json")
        self.assertEqual((status, json.loads(out)["rectangles"][0]["rows"]), (0, 2))
        self.assertEqual(command("rects", sheet, "--stock", "5", "5", "1", "1")[0], 1)
        self.assertEqual(command("rects", sheet, "--stock", "5", "5", "1", "0.001")[0], 2)


if __name__ == "__main__":
    unittest.main()
