"""Pictures: they are XML, every cell is in them once, axes and sizes are true, and the legend's shares add up."""

import itertools
import re
import unittest
import xml.etree.ElementTree as ElementTree
from decimal import Decimal

from clearance import figures, picture, sheets
from clearance.job import Job, is_line
from clearance.lengths import millimetres
from tests.samples import EDGE, EXAMPLES, MAP, ROOT, SHEET, Folder, command, striped_map

SVG = "{http://www.w3.org/2000/svg}"
BLOCK = re.compile(r"M(\d+) (\d+)h(\d+)v(\d+)h-(\d+)z")


def drawn(sheet_bytes, map_bytes, width=800, **options):
    rows = sheets.read_map(map_bytes)
    return ElementTree.fromstring(picture.picture(Job.from_sheet(sheet_bytes), rows, width, **options))


def by_id(root, name):
    return next((element for element in root.iter() if element.get("id") == name), None)


def words(root, name):
    return [text.text for text in by_id(root, name).iter(f"{SVG}text")]


def covered(root):
    """The cells that the paths of each letter cover."""
    cells = {}
    for path in by_id(root, "cells"):
        assert BLOCK.sub("", path.get("d")) == ""
        for x, y, width, height, back in (map(int, block) for block in BLOCK.findall(path.get("d"))):
            assert width == back
            for cell in itertools.product(range(x, x + width), range(y, y + height)):
                cells.setdefault(cell, []).append(path.get("class"))
    return cells


def lightness(colour):
    """Relative luminance, 0 to 1."""
    parts = [int(colour[i : i + 2], 16) / 255 for i in (1, 3, 5)]
    linear = [part / 12.92 if part <= 0.04045 else ((part + 0.055) / 1.055) ** 2.4 for part in parts]
    return 0.2126 * linear[0] + 0.7152 * linear[1] + 0.0722 * linear[2]


class Pictures(unittest.TestCase):
    def test_each_cell_once_and_in_its_letter(self):
        for text in (MAP, striped_map(8)):
            rows = sheets.read_map(text)
            cells = covered(drawn(SHEET, text))
            self.assertEqual(len(cells), 64)
            for (x, y), names in cells.items():
                self.assertEqual(names, [picture.NAMES[rows[y][x]].replace(" ", "-")])

    def test_runs_are_merged(self):
        root = drawn(SHEET, MAP)
        blocks = [len(BLOCK.findall(path.get("d"))) for path in by_id(root, "cells")]
        # Clear: above, below, left and right; doubtful: the same; in reach: one.
        self.assertEqual(blocks, [4, 4, 1])

    def test_every_example(self):
        for path in EXAMPLES:
            data = path.read_bytes()
            job = Job.from_sheet(data)
            side = 1 << (job.n - job.m)
            root = drawn(data, striped_map(side))
            self.assertEqual(len(covered(root)), side * side)
            path = by_id(root, "outline").get("d")
            lines = sum(map(is_line, job.edges))
            self.assertEqual((path.count("C"), path.count("L")), (len(job.edges) - lines, lines))
            self.assertEqual(by_id(root, "grid") is not None, 1 < side <= 64)

    def test_the_outline_is_exact(self):
        data = SHEET.replace(EDGE, b"(edge (1 -2) (3 4) (-5 6) (7 8))\n")
        root = drawn(data, MAP)
        self.assertEqual(by_id(root, "outline").get("d"), "M9 6C11 12 3 14 15 16")
        self.assertRegex(root.find(f".//{SVG}g[@clip-path]/{SVG}g").get("transform"), r"scale\(\S+ -\S+\)")

    def test_lines_are_drawn_straight(self):
        edges = b"(line (1 -2) (3 4))\n(edge (3 4) (0 0) (0 0) (5 6))\n(line (5 6) (1 -2))\n(line (0 0) (0 0))\n"
        root = drawn(SHEET.replace(EDGE, edges), MAP)
        self.assertEqual(by_id(root, "outline").get("d"), "M9 6L11 12C8 8 8 8 13 14L9 6M8 8L8 8")

    def test_grid_on_demand(self):
        data = SHEET.replace(b"(plate -8 -8 4)", b"(plate -8 -8 8)")
        self.assertIsNone(by_id(drawn(data, striped_map(128)), "grid"))
        self.assertIsNotNone(by_id(drawn(data, striped_map(128), grid=True), "grid"))

    def test_width(self):
        for width in (340, 699, 700, 1500):
            root = drawn(SHEET, MAP, width)
            self.assertEqual(root.get("width"), str(width))
            for text in root.iter(f"{SVG}text"):
                self.assertLess(float(text.get("y")), float(root.get("height")))
                self.assertLess(float(text.get("x")), width)

    def test_colours_differ_in_lightness(self):
        for one, other in itertools.combinations(map(lightness, picture.COLOURS.values()), 2):
            low, high = sorted((one, other))
            self.assertGreater((high + 0.05) / (low + 0.05), 1.45)

    def test_the_picture_of_the_readme(self):
        job = Job.from_sheet((ROOT / "examples" / "bracket.sheet").read_bytes())
        self.assertEqual((ROOT / "docs" / "bracket.svg").read_text(encoding="utf-8"), picture.picture(job, job.map().rows))


class Axes(unittest.TestCase):
    CORNERS = (-1_000_000, -999_999, -1, 0, 12_345, 1_000_000)

    def jobs(self):
        for corner, power in itertools.product(self.CORNERS, range(21)):
            yield Job(corner, -corner // 3, power, power, 5, [(0, 0, 1, 1)])

    def test_steps_and_how_many(self):
        for job, width in itertools.product(self.jobs(), (340, 700, 800, 2000)):
            step = picture.layout(job, width).step
            self.assertIn(str(step).rstrip("0"), ("1", "2", "5"))
            for start in (job.x, job.y):
                found = len(picture.ticks(start, job.n, step))
                self.assertLessEqual(found, 11)
                self.assertGreaterEqual(found, 5 if width >= 700 else 1)

    def test_ticks_are_the_multiples_on_the_side(self):
        self.assertEqual(picture.ticks(-8, 4, 50), [-50, 0, 50])
        self.assertEqual(picture.ticks(-10, 4, 50), [-100, -50, 0, 50])
        self.assertEqual(picture.ticks(1, 4, 100), [100])
        self.assertEqual(picture.ticks(-15, 4, 200), [0])

    def test_labels_stand_where_they_say_and_apart(self):
        for job, width in itertools.product(self.jobs(), (340, 800)):
            root = ElementTree.fromstring(picture.picture(job, ["D"], width))
            frame = [float(by_id(root, "frame").get(name)) for name in ("x", "y", "width")]
            labels = [element for element in by_id(root, "axes").iter(f"{SVG}text")][1:]
            marks = re.findall(r"M(\S+) (\S+)([vh])", by_id(root, "axes").find(f"{SVG}path").get("d"))
            self.assertEqual(len(labels), len(marks))
            end = float("-inf")
            for label, (x, y, way) in zip(labels, marks):
                across = way == "v"
                place = float(x) - frame[0] if across else frame[1] + frame[2] - float(y)
                corner = job.x if across else job.y
                true = float(Decimal(label.text) - millimetres(corner)) * 100 / (1 << job.n) * frame[2]
                self.assertAlmostEqual(place, true, delta=0.01)
                half = picture.label_width(label.text) / 2
                if across:
                    self.assertGreater(float(x) - half, end)
                    end = float(x) + half
                    self.assertLess(end, width)
                else:
                    self.assertGreater(float(label.get("x")) - 2 * half, 0)

    def test_true_size(self):
        for job, width in itertools.product(self.jobs(), (340, 800)):
            root = ElementTree.fromstring(picture.picture(job, ["C"], width, actual=True))
            plate = float(by_id(root, "frame").get("width"))
            across, up = (float(re.fullmatch(r"([\d.]+)mm", root.get(name)).group(1)) for name in ("width", "height"))
            box = list(map(float, root.get("viewBox").split()))
            side = float(millimetres(1 << job.n))
            self.assertAlmostEqual(across / box[2] * plate / side, 1, places=7)
            self.assertAlmostEqual(up / box[3] * plate / side, 1, places=7)


class Overlays(unittest.TestCase):
    def overlay(self, sheet, rows, **options):
        return ElementTree.fromstring(picture.overlay(Job.from_sheet(sheet), rows, **options))

    def test_millimetres_of_the_drawing(self):
        sheet = SHEET.replace(b"(plate -8 -8 4)", b"(plate -120 34 4)")
        root = self.overlay(sheet, sheets.read_map(MAP))
        # The plate is x from -1.2 to -1.04 and y from 0.34 to 0.5; y is turned over.
        self.assertEqual(root.get("viewBox"), "-1.2 -0.5 0.16 0.16")
        self.assertEqual((root.get("width"), root.get("height")), ("0.16mm", "0.16mm"))
        self.assertEqual(by_id(root, "cells").get("transform"), "translate(-1.2 -0.34) scale(0.02 -0.02)")
        self.assertEqual(len(covered(root)), 64)

    def test_cells_alone_and_see_through(self):
        root = self.overlay(SHEET, sheets.read_map(MAP))
        self.assertEqual([element.tag for element in root], [f"{SVG}title", f"{SVG}g"])
        self.assertTrue(0 < float(by_id(root, "cells").get("fill-opacity")) < 1)

    def test_the_outline_on_demand(self):
        root = self.overlay(SHEET.replace(EDGE, b"(line (1 -2) (3 4))\n"), sheets.read_map(MAP), outline=True)
        self.assertEqual(by_id(root, "outline").get("d"), "M9 6L11 12")
        self.assertEqual(root[-1].get("transform"), "translate(-0.08 0.08) scale(0.01 -0.01)")


class Legend(unittest.TestCase):
    def test_shares_of_the_sample(self):
        found = words(drawn(SHEET, MAP), "legend")
        self.assertEqual(found[:3], ["C clear", "75.0 %", "0.0192 mm²"])
        self.assertEqual(found[3:6], ["D doubtful", "18.8 %", "0.0048 mm²"])
        self.assertEqual(found[6:], ["I in reach", "6.3 %", "0.0016 mm²", "outline"])

    def test_what_the_letters_mean(self):
        for width in (340, 800):
            self.assertEqual(
                " / ".join(words(drawn(SHEET, MAP, width), "meanings")),
                "clear: at least the reach away from the outline / doubtful: too close to call / "
                "in reach: closer than the reach all over / C does not tell part from stock",
            )

    def test_shares_are_rounded(self):
        pairs = {(0, 9): "0.0 %", (9, 9): "100.0 %", (1, 3): "33.3 %", (2, 3): "66.7 %", (1, 16): "6.3 %", (567, 4096): "13.8 %"}
        for pair, told in pairs.items():
            self.assertEqual(figures.per_cent(*pair), told)
        for path in EXAMPLES:
            data = path.read_bytes()
            side = sheets.read_sheet(data).cells_a_side()
            text = " ".join(words(drawn(data, striped_map(side)), "legend"))
            shares = [round(10 * float(share)) for share in re.findall(r"([\d.]+) %", text)]
            self.assertEqual(len(shares), 3)
            self.assertLessEqual(abs(sum(shares) - 1000), 1)

    def test_the_scale_bar_is_round(self):
        for exponent in range(21):
            length = picture.bar_length(1 << exponent)
            self.assertIn(length.normalize().as_tuple().digits, [(1,), (2,), (5,)])
            self.assertTrue(length * 3 <= millimetres(1 << exponent) < length * 8)


class Look(unittest.TestCase):
    def setUp(self):
        self.folder = Folder()
        self.addCleanup(self.folder.cleanup)
        self.sheet = self.folder.file("sheet", SHEET)
        self.map = self.folder.file("map", MAP)

    def look(self, *arguments, **options):
        return command("look", *arguments, **options)

    def test_done(self):
        status, svg, error = self.look("--width", 400, self.sheet, self.map)
        self.assertEqual((status, error), (0, ""))
        self.assertEqual(ElementTree.fromstring(svg).get("width"), "400")

    def test_without_a_map_the_library_draws_it(self):
        self.assertEqual(self.look(self.sheet), self.look(self.sheet, self.map))
        other = self.folder.file("other", striped_map(8))
        self.assertNotEqual(self.look(self.sheet), self.look(self.sheet, other))

    def test_to_a_file(self):
        path = self.folder.file("picture", b"old")
        self.assertEqual(self.look(self.sheet, self.map, "-o", path), (0, "", ""))
        self.assertEqual(path.read_text(encoding="utf-8"), self.look(self.sheet, self.map)[1])
        path.write_bytes(b"old")
        self.assertEqual(self.look(self.sheet, self.folder.file("none", b""), "-o", path)[0], 1)
        self.assertEqual(path.read_bytes(), b"old")
        self.assertEqual(self.look(self.sheet, "-o", path / "below")[0], 3)

    def test_standard_input(self):
        wanted = self.look(self.sheet, self.map)
        self.assertEqual(self.look("-", self.map, stdin=SHEET), wanted)
        self.assertEqual(self.look(self.sheet, "-", stdin=MAP), wanted)
        self.assertEqual(self.look("-", "-", stdin=SHEET)[0], 2)

    def test_kinds(self):
        job, rows = Job.from_sheet(SHEET), sheets.read_map(MAP)
        for option, wanted in [
            (["--actual"], picture.picture(job, rows, actual=True)),
            (["--overlay"], picture.overlay(job, rows)),
            (["--overlay", "--outline"], picture.overlay(job, rows, outline=True)),
        ]:
            self.assertEqual(self.look(self.sheet, self.map, *option), (0, wanted, ""))

    def test_several_sheets_of_one_plate(self):
        other = SHEET.replace(EDGE, b"(line (4 4) (6 6))\n").replace(b"(reach 4)", b"(reach 2)")
        one, two = self.folder.file("one.sheet", SHEET), self.folder.file("two.sheet", other)
        status, svg, said = command("look", one, "--also", two)
        self.assertEqual((status, said), (0, ""))
        both = command("map", one, two)[1]
        self.assertEqual(svg, command("look", one, self.folder.file("both.map", both.encode()), "--also", two)[1])
        self.assertNotEqual(both, command("map", one)[1])
        self.assertIn("M12 12L14 14", svg)
        odd = self.folder.file("odd.sheet", SHEET.replace(b"(cell 1)", b"(cell 2)"))
        status, svg, said = command("look", one, "--also", odd)
        self.assertEqual((status, svg), (1, ""))
        self.assertIn("odd.sheet:3:7: another plate or cell", said)

    def test_the_longest_map(self):
        sheet = self.folder.file("s", SHEET.replace(b"(plate -8 -8 4)", b"(plate -8 -8 9)"))
        longest = command("map", sheet)[1].encode("ascii")
        self.assertEqual(len(longest), 67_339)
        self.assertEqual(self.look(sheet, self.folder.file("m", longest))[0], 0)
        status, _, error = self.look(sheet, self.folder.file("m", longest + b"\n"))
        self.assertEqual(status, 1)
        self.assertIn("m:259:1: ", error)

    def test_what_cannot_be_used(self):
        long_line = b"(line (0 0) (999999 0))\n"
        for name, sheet, map_text, told in [
            ("refused map", SHEET, b"(refused 5)\n", "5 (long)"),
            ("wrong size", SHEET, striped_map(16), "16 cells a side"),
            ("broken map", SHEET, MAP[:-1], "m:10:2: "),
            ("broken sheet", SHEET[:-1], MAP, "s:7:2: "),
            ("refused sheet", SHEET.replace(b"(cell 1)", b"(cell 5)"), MAP, "refused 4 (cell)"),
            ("no map can be drawn", SHEET.replace(EDGE, long_line), None, "refused 5 (long)"),
        ]:
            with self.subTest(name):
                files = [self.folder.file("s", sheet)] + ([] if map_text is None else [self.folder.file("m", map_text)])
                for option in ([], ["--html"], ["--overlay"]):
                    status, svg, error = self.look(*files, *option)
                    self.assertEqual((status, svg), (1, ""))
                    self.assertIn(told, error)
                    self.assertTrue(error.startswith("clearance: ") and error.count("\n") == 1)
        self.assertEqual(self.look(self.sheet, "no such map")[0], 3)

    def test_a_map_that_the_library_contradicts(self):
        """C may become D or I, and D may become I, by further sheets of the plate; nothing goes the other way."""
        for new, status in [(b"CCDIICCC", 1), (b"CCDIDDCC", 1), (b"CCDCIDCC", 1), (b"CCIIIDCC", 0), (b"DIDIIDCC", 0)]:
            changed = self.folder.file("changed", MAP.replace(b"CCDIIDCC", new, 1))
            for verb in ("look", "rects"):
                done, out, said = command(verb, self.sheet, changed)
                self.assertEqual(done, status, (verb, new))
                if status:
                    self.assertEqual(out, "")
                    self.assertIn("changed: this is no map of ", said)

    def test_reaches_that_differ_are_told(self):
        other = SHEET.replace(EDGE, b"(line (4 4) (6 6))\n").replace(b"(reach 4)", b"(reach 2)")
        svg = self.look(self.sheet, "--also", self.folder.file("two.sheet", other))[1]
        self.assertIn("reach 0.04 and 0.02 mm, grain 0.01 mm", svg)
        self.assertIn("reach 0.04 mm, grain 0.01 mm", self.look(self.sheet)[1])

    def test_usage(self):
        self.assertEqual(self.look("--help")[0], 0)
        both = (self.sheet, self.map)
        for arguments in [
            (),
            ("--width", "x", *both),
            ("--width", 5, *both),
            ("--width", "²", *both),
            ("--actual", "--overlay", *both),
            ("--html", "--overlay", *both),
            ("--outline", *both),
            ("--overlay", "--width", 400, *both),
            ("--overlay", "--grid", *both),
        ]:
            with self.subTest(arguments):
                status, svg, error = self.look(*arguments)
                self.assertEqual((status, svg), (2, ""))
                self.assertNotEqual(error, "")


if __name__ == "__main__":
    unittest.main()
