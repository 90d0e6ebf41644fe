"""Parts: they tell what one sheet with all edges would, their files are read strictly, and a sheet alone is not taken for one."""

import json
import math
import os
import random
import unittest
from dataclasses import replace
from pathlib import Path
from unittest import mock

from clearance import BadPart, Job, Part, Refused, parts
from clearance.lengths import millimetres
from tests.samples import ROOT, SHEET, Folder, command
from tests.test_from import needs_svgelements
from tests.test_page import embedded, pairs

BRACKET = Job.from_sheet((ROOT / "examples" / "bracket.sheet").read_bytes())
CUTS = ((0, 5), (5, 12), (12, 20))
# How each verb takes one sheet or part.
VERBS = {
    "map": ("map", "{}"),
    "look": ("look", "{}"),
    "page": ("look", "--html", "{}"),
    "rects": ("rects", "{}"),
    "spot": ("spot", "{}", "1", "2"),
    "check": ("check", "{}"),
    "advise": ("advise", "{}"),
    "explain": ("explain", "{}"),
    "diff": ("diff", "{}", ROOT / "examples" / "bracket.map"),
}


def words(verb, sheet, *more):
    return [str(sheet) if word == "{}" else word for word in VERBS[verb]] + list(more)


def pieces(job=BRACKET, cuts=CUTS):
    return [replace(job, edges=job.edges[start:end]) for start, end in cuts]


class Case(unittest.TestCase):
    def setUp(self):
        self.folder = Folder()
        self.addCleanup(self.folder.cleanup)
        self.top = Path(self.folder.name)

    def write(self, name="F", jobs=None, source=None):
        """The files of a part, and the part's own path."""
        for path, data in parts.files(str(self.top / f"{name}.sheet"), jobs or pieces(), source or {}):
            Path(path).write_bytes(data)
        return self.top / f"{name}.part"

    def sheets(self, name="F", count=len(CUTS)):
        return [self.top / f"{name}-{number}.sheet" for number in range(1, count + 1)]


class Wholes(Case):
    """With one grain a part says what one sheet with all its edges says."""

    def test_the_map(self):
        self.assertEqual(Part(pieces()).map().letters, BRACKET.map().letters)
        self.assertEqual(command("map", self.write())[:2], (0, BRACKET.map().text().decode()))

    def test_points(self):
        chance = random.Random(33)
        spots = [tuple(millimetres(chance.randint(-5_000, 9_000)) for _ in "xy") for _ in range(300)]
        for whole, found in zip(BRACKET.points(spots), Part(pieces()).points(spots)):
            self.assertEqual((found.lo_squared, found.hi_squared), (whole.lo_squared, whole.hi_squared))
            self.assertEqual(CUTS[found.sheet][0] + found.edge, whole.edge)

    def test_bounds_of_other_grains(self):
        """The least of each, and the first sheet and edge that has the least upper one."""
        jobs = [replace(job, grain=grain) for job, grain in zip(pieces(), (200, 20, 55))]
        spots = [(x, y) for x in range(-10, 80, 9) for y in range(-10, 80, 9)]
        alone = list(zip(*(job.points(spots) for job in jobs)))
        chosen = set()
        for found, each in zip(Part(jobs).points(spots), alone):
            self.assertEqual(found.lo_squared, min(one.lo_squared for one in each))
            self.assertEqual(found.hi_squared, min(one.hi_squared for one in each))
            first = [one.hi_squared for one in each].index(found.hi_squared)
            self.assertEqual((found.sheet, found.edge), (first, each[first].edge))
            self.assertLessEqual(found.lo_squared, found.hi_squared)
            chosen.add(found.sheet)
        self.assertEqual(chosen, {0, 1, 2})

    def test_of_equal_bounds_the_first_sheet(self):
        found = Part([BRACKET, BRACKET]).point(0, 0)
        self.assertEqual((found.sheet, found.edge), (0, BRACKET.point(0, 0).edge))

    def test_rectangles(self):
        part = self.write()
        whole = self.folder.file("whole.sheet", BRACKET.to_sheet())
        self.assertEqual(command("rects", part, "--all"), command("rects", whole, "--all"))
        one, *others = self.sheets()
        also = [word for other in others for word in ("--also", other)]
        self.assertEqual(command("rects", one, *also, "--all"), command("rects", whole, "--all"))

    def test_the_page(self):
        page = command("look", "--html", self.write())[1]
        whole = command("look", "--html", self.folder.file("whole.sheet", BRACKET.to_sheet()))[1]
        self.assertEqual(embedded(page)["letters"], embedded(whole)["letters"])
        self.assertEqual(pairs(embedded(page)), pairs(embedded(whole)))
        self.assertIn("F-1.sheet, F-2.sheet, F-3.sheet", page)

    def test_pictures(self):
        part = self.write()
        whole = self.folder.file("whole.sheet", BRACKET.to_sheet())
        for option in ([], ["--actual"], ["--overlay"], ["--overlay", "--outline"], ["--grid", "--width", "500"]):
            self.assertEqual(command("look", part, *option), command("look", whole, *option), option)

    def test_check(self):
        """What meets across sheets is no gap; edges, outline and cells are those of the whole."""
        part = self.write()
        status, told, said = command("check", "--json", part)
        whole = json.loads(command("check", "--json", self.folder.file("whole.sheet", BRACKET.to_sheet()))[1])[0]
        told = json.loads(told)[0]
        self.assertEqual((status, said), (0, ""))
        for name in set(whole) - {"file", "sheets", "nodes", "store_numbers", "warnings"}:
            self.assertEqual(told[name], whole[name], name)
        self.assertEqual(told["nodes"], sum(job.map().nodes for job in pieces()))
        self.assertEqual([one["kind"] for one in told["warnings"]], [one["kind"] for one in whole["warnings"]])
        self.assertNotIn("gap", [one["kind"] for one in told["warnings"]])
        self.assertEqual([one["edges"] for one in told["sheets"]], [5, 7, 8])
        self.assertIn("the outline has gaps", command("check", self.sheets()[0])[1])

    def test_warnings_name_the_sheet(self):
        """A gap, an edge off the plate and the coarsest grain, each in another sheet."""
        square = [(0, 0, 1000, 0), (1000, 0, 1000, 1000), (1000, 1000, 0, 1000), (0, 1000, 0, 3)]
        job = Job(-100, -24, 10, 2, 50, square, 1)
        jobs = [replace(job, edges=edges, grain=grain) for edges, grain in ((square[:1], 1), (square[1:3], 40), (square[3:], 2))]
        part = self.write(jobs=jobs)
        told = json.loads(command("check", "--json", part)[1])[0]["warnings"]
        places = {one["kind"]: (os.path.basename(one["file"]), one["line"]) for one in told}
        self.assertEqual(places, {"plate": ("F-1.sheet", 6), "reach": ("F-2.sheet", 4), "gap": ("F-1.sheet", 6)})
        text = command("check", part)[1]
        self.assertIn("grain     1 to 40 (0.01 to 0.4 mm)", text)
        self.assertIn("band E    1.26 mm", text)
        self.assertIn(f"{self.sheets()[1]}:4: warning: the reach, 0.5 mm", text)
        self.assertIn("2 ends of edges meet no other end", text)


class Rectangles(Case):
    def star(self):
        """180 edges of a star, as `from --split` writes them: 64 to a sheet."""
        radius = (6_000, 7_000)
        turns = [2 * math.pi * step / 180 for step in range(180)]
        corners = [tuple(8_000 + round(radius[step % 2] * way(turn)) for way in (math.cos, math.sin)) for step, turn in enumerate(turns)]
        edges = [(*a, *b) for a, b in zip(corners, corners[1:] + corners[:1])]
        return [Job(0, 0, 14, 6, 250, edges[start : start + 64], 64) for start in (0, 64, 128)]

    def ends_in(self, job, rectangle, jobs):
        """How many ends of edges are closer than the reach to a rectangle."""
        cell = 1 << job.m
        left, low = job.x + rectangle["column"] * cell, job.y + rectangle["row"] * cell
        right, high = left + rectangle["columns"] * cell, low + rectangle["rows"] * cell
        ends = [end for one in jobs for edge in one.edges for end in (edge[:2], edge[-2:])]
        away = [(max(left - x, 0, x - right), max(low - y, 0, y - high)) for x, y in ends]
        return sum(x * x + y * y < job.reach**2 for x, y in away)

    def test_no_end_of_any_sheet_is_in_reach(self):
        """The first rectangle of one sheet alone has edges of the others in it; none of the part's has."""
        jobs = self.star()
        part = self.write(jobs=jobs)
        status, told, said = command("rects", part, "--all", "--json")
        self.assertEqual((status, said), (0, ""))
        listed = json.loads(told)["rectangles"]
        self.assertGreater(len(listed), 50)
        for rectangle in listed:
            self.assertEqual(self.ends_in(jobs[0], rectangle, jobs), 0)
        status, told, said = command("rects", self.sheets()[0], "--json")
        self.assertIn("F-1.sheet is one of 3 sheets of", said)
        self.assertGreater(self.ends_in(jobs[0], json.loads(told)["rectangles"][0], jobs[1:]), 10)

    def test_maps_that_were_given(self):
        part = self.write()
        whole = self.folder.file("whole.map", BRACKET.map().text())
        self.assertEqual(command("rects", part, whole), command("rects", part))
        one = self.folder.file("one.map", pieces()[0].map().text())
        status, out, said = command("rects", part, one)
        self.assertEqual((status, out), (1, ""))
        self.assertIn("one.map: this is no map of", said)
        status, _, said = command("rects", *self.sheets()[:2])
        self.assertEqual(status, 1)
        self.assertIn("F-2.sheet: this is a sheet or a part, and a map is expected here; --also", said)


class Verbs(Case):
    def test_each_takes_a_part_and_says_nothing_of_it(self):
        part = self.write()
        for verb in VERBS:
            status, out, said = command(*words(verb, part))
            if verb == "explain":
                self.assertEqual((status, out), (1, ""))
                self.assertIn("F.part: each of its 3 sheets is not refused", said)
            else:
                self.assertEqual((status, said), (0, ""), verb)
                self.assertTrue(out)

    def test_each_says_that_a_sheet_is_one_of_a_part(self):
        part = self.write()
        wanted = f"clearance: {self.sheets()[1]} is one of 3 sheets of {part}: give {part} for the whole part\n"
        for verb in VERBS:
            _, out, said = command(*words(verb, self.sheets()[1]))
            self.assertIn(wanted, said, verb)
            # What was asked for is answered all the same.
            self.assertTrue(out or verb == "explain", verb)

    def test_a_sheet_that_was_changed_is_told_so(self):
        part = self.write()
        sheet = self.folder.file("F-2.sheet", BRACKET.to_sheet())
        wanted = f"{sheet} is named as one of 3 sheets of {part}: it has been changed since, and the part is to be made anew\n"
        self.assertEqual(command("map", sheet)[2], f"clearance: {wanted}")

    def test_nothing_is_said_where_all_are_given(self):
        self.write()
        one, *others = self.sheets()
        also = [word for other in others for word in ("--also", other)]
        for verb in ("look", "page", "rects", "spot", "advise"):
            self.assertEqual(command(*words(verb, one, *also))[::2], (0, ""), verb)
        self.assertEqual(command("map", *self.sheets())[::2], (0, ""))
        self.assertEqual(command("map", one, others[0])[2].count("is one of 3 sheets"), 1)
        # A part of one sheet is that sheet.
        self.write("one", [BRACKET])
        self.assertEqual(command("map", self.top / "one-1.sheet")[::2], (0, ""))

    def test_only_parts_that_name_it(self):
        part = self.write()
        other = self.folder.file("F-9.sheet", BRACKET.to_sheet())
        self.assertEqual(command("check", other)[2], "")
        self.folder.file("broken.part", b"{")
        os.mkfifo(self.top / "pipe.part")
        self.assertEqual(command("check", self.sheets()[0])[2].count("\n"), 1)
        os.rename(part, self.top / "another.part")
        self.assertIn("another.part for the whole part", command("check", self.sheets()[0])[2])

    def test_also_is_the_part_too(self):
        self.write()
        one, *others = self.sheets()
        also = [word for other in others for word in ("--also", other)]
        for verb in ("look", "spot", "advise"):
            several, part = command(*words(verb, one, *also)), command(*words(verb, self.top / "F.part"))
            self.assertEqual(several[1].replace("F-1.sheet, 3", "F.part, 3"), part[1], verb)
        other = self.folder.file("other.sheet", replace(BRACKET, edges=[(9000, 9000, 9100, 9000)]).to_sheet())
        status, out, _ = command("spot", self.top / "F.part", "--also", other, "90", "90")
        self.assertEqual(status, 0)
        self.assertIn(f"edge 0 ({other}, line 6)", out)

    def test_spots(self):
        part = self.write()
        status, out, _ = command("spot", part, "12.5", "30")
        self.assertEqual((status, out), (0, f"12.5 30: 2.5000 to 2.5125 mm, edge 1 ({self.sheets()[1]}, line 7)\n"))
        told = json.loads(command("spot", "--json", part, "12.5", "30", "-5", "30")[1])
        self.assertEqual([(one["sheet"], one["edge"]) for one in told], [(str(self.sheets()[1]), edge) for edge in (1, 5)])

    def test_maps_into_a_folder(self):
        part = self.write()
        status, out, _ = command("map", "-o", self.top / "maps", part, self.sheets()[0], "--json")
        self.assertEqual(status, 0)
        self.assertEqual([one["sheets"] for one in json.loads(out)], [3, 1])
        self.assertEqual((self.top / "maps" / "F.map").read_bytes(), BRACKET.map().text())
        self.assertEqual((self.top / "maps" / "F-1.map").read_bytes(), pieces()[0].map().text())
        self.assertIn("F.map, 3 sheets, 64 cells a side", command("map", "-o", self.top, part)[1])
        # One of another plate does not keep the part from its map.
        other = self.folder.file("other.sheet", SHEET)
        self.assertEqual(command("map", part, other)[:2], (1, ""))
        self.assertEqual(command("map", "-o", self.top, part, other)[0], 0)

    def test_differences(self):
        part, whole = self.write(), self.folder.file("whole.sheet", BRACKET.to_sheet())
        stored = ROOT / "examples" / "bracket.map"
        for pair in ((part, stored), (stored, part), (part, whole), (whole, stored), (part, part)):
            self.assertEqual(command("diff", *pair)[:2], (0, "the same\n"), pair)
        self.assertEqual(command("diff", stored, "-", stdin=BRACKET.to_sheet())[:2], (0, "the same\n"))
        status, out, _ = command("diff", part, self.sheets()[0], "--json")
        self.assertEqual((status, {one["new"] for one in json.loads(out)["changes"]}), (1, {"C", "D"}))
        moved = self.folder.file("moved.sheet", replace(BRACKET, x=BRACKET.x + 1).to_sheet())
        status, out, said = command("diff", part, moved)
        self.assertEqual((status, out), (1, ""))
        self.assertIn("moved.sheet:2:8: another plate or cell", said)
        self.assertEqual(command("diff", self.folder.file("wrong.sheet", b"(job\n"), stored)[0], 1)

    def test_explained(self):
        """Which of its sheets is refused, and why."""
        fine = [replace(job, grain=grain) for job, grain in zip(pieces(), (30, 5, 30))]
        part = self.write(jobs=fine)
        status, out, said = command("explain", part)
        self.assertEqual((status, said), (0, ""))
        self.assertTrue(out.startswith(f"{self.sheets()[1]}: 6 (store)\n"), out)
        self.assertEqual(out.count("(store)"), 1)
        self.assertEqual(command("explain", "6", part)[1], out)
        status, out, said = command("explain", "5", part)
        self.assertEqual((status, out, said.count("\n")), (1, "", 3))
        self.assertIn("F-2.sheet: not refused with 5 (long), but with 6 (store)", said)
        self.assertIn("refuses", command("check", part)[1])
        self.assertFalse(json.loads(command("check", "--json", part)[1])[0]["accepted_by_clearmap"])
        self.assertEqual(command("map", "--store", "16379", part)[:2], (1, "(refused 6)\n"))

    def test_standard_input(self):
        part = self.write()
        for verb in VERBS:
            status, out, said = command(*words(verb, "-"), stdin=part.read_bytes())
            self.assertEqual(status, 2, verb)
            self.assertIn("a part is given by its file's name", said)


class Advice(Case):
    def test_a_part_is_written(self):
        odd = [replace(job, x=BRACKET.x - 999, n=BRACKET.n + 1, m=BRACKET.m + 1) for job in pieces()]
        part = self.write(jobs=odd, source={"drawing": "bracket.dxf", "w": "0"})
        status, out, said = command("advise", part, "--write", "-o", self.top / "G.sheet")
        self.assertEqual((status, out), (0, ""))
        self.assertIn(f"written: {self.top}/G-1.sheet, ", said)
        made = Part.read(self.top / "G.part")
        whole = Job.from_sheet(command("advise", self.folder.file("whole.sheet", BRACKET.to_sheet()), "--write")[1].encode())
        self.assertEqual(sum((job.edges for job in made.jobs), ()), whole.edges)
        for job in made.jobs:
            self.assertEqual((job.x, job.y, job.n, job.m, job.reach), (whole.x, whole.y, whole.n, whole.m, whole.reach))
        told = json.loads((self.top / "G.part").read_bytes())
        self.assertEqual((told["drawing"], told["w"]), ("bracket.dxf", "0"))
        self.assertEqual(command("advise", self.top / "G.part")[0], 0)

    def test_compared(self):
        jobs = [replace(job, grain=grain) for job, grain in zip(pieces(), (64, 30, 99))]
        told = json.loads(command("advise", "--json", self.write(jobs=jobs))[1])
        self.assertEqual((told["now"]["grains"], told["now"]["grain"]), ([64, 30, 99], 99))
        self.assertEqual(told["now"]["nodes"], sum(job.map().nodes for job in jobs))
        self.assertEqual(len(told["sheets"]), 3)
        self.assertIn("grain     30 to 99", command("advise", self.top / "F.part")[1])

    def test_statuses(self):
        part = self.write()
        before = sorted(os.listdir(self.top))
        self.assertEqual(command("advise", part, "--write")[:2], (2, ""))
        self.assertEqual(command("advise", part, "-o", "-")[0], 2)
        also = [word for _ in range(parts.SHEETS_MOST) for word in ("--also", self.sheets()[0])]
        self.assertEqual(command("advise", self.sheets()[0], *also, "-o", self.top / "G.sheet")[0], 1)
        self.assertEqual(sorted(os.listdir(self.top)), before)
        other = self.folder.file("other.sheet", replace(BRACKET, reach=BRACKET.reach + 1).to_sheet())
        status, out, said = command("advise", part, "--also", other)
        self.assertEqual((status, out), (1, ""))
        self.assertIn("other.sheet:4:8: another plate, cell or reach than", said)
        (self.top / "G.part").mkdir()
        self.assertEqual(command("advise", part, "-o", self.top / "G.sheet")[0], 3)
        self.assertEqual(sorted(os.listdir(self.top)), sorted([*before, "G.part", "other.sheet"]))


class Files(Case):
    """The file of a part is read strictly."""

    def changed(self, change):
        """What a verb says of a part whose JSON is changed."""
        part = self.write()
        told = json.loads(part.read_bytes())
        change(told)
        part.write_text(json.dumps(told))
        return self.refused(part)

    def refused(self, part):
        status, out, said = command("check", part)
        self.assertEqual((status, out), (1, ""), said)
        self.assertTrue(said.startswith(f"clearance: {part}:"), said)
        self.assertEqual(said.count("\n"), 1)
        with self.assertRaises(BadPart):
            Part.read(part)
        return said

    def test_what_is_written(self):
        source = {"drawing": "bracket.dxf", "unit": "mm", "left_out": {"text": 2}, "w": "0.01", "reach_asked": "3", "x": 1}
        told = json.loads(self.write(source=source).read_bytes())
        self.assertEqual(list(told)[:2], [parts.MARK, "version"])
        self.assertEqual({name: told[name] for name in source if name in told}, {name: source[name] for name in source if name != "x"})
        self.assertEqual(told["edges"]["count"], 20)
        self.assertEqual((told["reach_hundredths"], told["reach_written"]), (300, "3"))
        self.assertEqual([sheet["name"] for sheet in told["sheets"]], ["F-1.sheet", "F-2.sheet", "F-3.sheet"])

    def test_keys_and_types(self):
        for change, wanted in [
            (lambda told: told.pop(parts.MARK), 'no "clearance_part"'),
            (lambda told: told.update({parts.MARK: 2}), "parts of format 1"),
            (lambda told: told.update({parts.MARK: "1"}), "parts of format 1"),
            (lambda told: told.update({parts.MARK: True}), "parts of format 1"),
            (lambda told: told.update({parts.MARK: "x" * 9_000}), 'xxx..., and'),
            (lambda told: told.update({"\x1b": 1}), '"\\u001b" is not known'),
            (lambda told: told.update(more=1), '"more" is not known'),
            (lambda told: told.pop("version"), '"version" is missing'),
            (lambda told: told.pop("bounds"), '"bounds" is missing'),
            (lambda told: told.update(version=1), '"version" is 1'),
            (lambda told: told.update(w=0.5), '"w" is 0.5'),
            (lambda told: told.update(left_out={"text": "2"}), '"left_out" is'),
            (lambda told: told.update(left_out=[]), '"left_out" is'),
            (lambda told: told.update(sheets=[]), "list of 1 to 64"),
            (lambda told: told.update(sheets={}), "list of 1 to 64"),
            (lambda told: told.update(sheets=told["sheets"] * 22), "list of 1 to 64"),
            (lambda told: told.update(sheets=["F-1.sheet"]), 'a "name" and a "sha256"'),
            (lambda told: told["sheets"][0].pop("sha256"), 'a "name" and a "sha256"'),
            (lambda told: told["sheets"][0].update(name=7), 'a "name" and a "sha256"'),
            (lambda told: told["sheets"][0].update(sha256="0"), "64 digits of base 16"),
            (lambda told: told["sheets"].append(told["sheets"][0]), "names a sheet twice"),
        ]:
            self.assertIn(wanted, self.changed(change))

    def test_names_of_files(self):
        for name in ("", ".", "..", "-", "/etc/passwd", "../F-1.sheet", "a/F-1.sheet", "F-1.sheet\0", "\x1b[2J", "\ud800"):
            self.assertIn("is no plain name of a file", self.changed(lambda told: told["sheets"][0].update(name=name)), name)

    def test_what_the_sheets_show(self):
        """A sheet that was taken out of the list is noticed, and figures that are not the sheets'."""
        self.assertIn('"edges" is', self.changed(lambda told: told["sheets"].pop()))
        self.assertIn('"bounds" is', self.changed(lambda told: told["bounds"].update(x=["0", "1"])))
        self.assertIn('"reach_hundredths" is 299, and its sheets have 300', self.changed(lambda told: told.update(reach_hundredths=299)))
        one, two, three = pieces()
        for other in (replace(two, x=two.x + 1), replace(two, m=two.m - 1), replace(two, reach=two.reach + 1)):
            self.assertIn("not of one plate, cell and reach", self.refused(self.write(jobs=[one, other, three])))

    def test_other_texts(self):
        for text, wanted in [
            (b"{", "F.part:1:2: this is no part"),
            (b"{}", 'no "clearance_part"'),
            (b' \n{"clearance_part": 1,\n}', "F.part:3:1: this is no part"),
            (b'{"clearance_part": 1, "clearance_part": 1}', "a name stands twice"),
            (b'{"clearance_part": NaN}', "NaN is no number"),
            (b'{"clearance_part": "\xff"}', "no JSON that can be read"),
            (b'{"a":' * 30_000, "no JSON that can be read"),
            (b'{"clearance_part":' + b"[" * 900 + b"]" * 900 + b"}", "is"),
            (b'{"clearance_part": 1' + b" " * 200_000 + b"}", "more than 200,000 bytes"),
        ]:
            self.assertIn(wanted, self.refused(self.folder.file("F.part", text)))
        # What does not begin with { is no part, whatever its name.
        sheet = self.folder.file("G.part", SHEET)
        self.assertEqual(command("map", sheet)[0], 0)
        self.assertIn("G.part:1:1: refused 1 (form): the file is empty", command("map", self.folder.file("G.part", b""))[2])

    def test_a_sheet_that_was_changed(self):
        part = self.write()
        sheet = self.sheets()[1]
        sheet.write_bytes(sheet.read_bytes().replace(b"(reach 300)", b"(reach 299)"))
        for verb in VERBS:
            status, out, said = command(*words(verb, part))
            self.assertEqual((status, out), (1, ""), verb)
            self.assertIn("F.part: its sheet F-2.sheet has been changed or replaced", said)
            self.assertIn("make the part anew", said)
        with self.assertRaisesRegex(BadPart, "F-2.sheet has been changed"):
            Part.read(part)

    def test_a_sheet_that_is_missing(self):
        part = self.write()
        self.sheets()[1].unlink()
        for verb in VERBS:
            status, out, said = command(*words(verb, part))
            self.assertEqual((status, out), (3, ""), verb)
            self.assertIn(f"F-2.sheet: No such file or directory; {part} names it as a sheet: make the part anew", said)
        with self.assertRaises(FileNotFoundError):
            Part.read(part)
        # The others of a check are told.
        whole = self.folder.file("whole.sheet", BRACKET.to_sheet())
        status, out, _ = command("check", part, whole)
        self.assertEqual((status, out), (3, command("check", whole)[1]))

    def test_a_sheet_that_is_refused(self):
        part = self.write()
        told = json.loads(part.read_bytes())
        wrong = self.sheets()[2].read_bytes().replace(b"(reach 300)", b"(reach 0)")
        self.sheets()[2].write_bytes(wrong)
        told["sheets"][2]["sha256"] = parts.digest(wrong)
        part.write_text(json.dumps(told))
        for verb in VERBS:
            status, _, said = command(*words(verb, part))
            if verb == "explain":
                self.assertEqual(status, 0)
                continue
            self.assertEqual(status, 1, verb)
            self.assertIn("F-3.sheet:4:8: refused 3 (range)", said, verb)
        refused = json.loads(command("check", "--json", part)[1])[0]["refused"]
        self.assertEqual((os.path.basename(refused["sheet"]), refused["number"], refused["line"]), ("F-3.sheet", 3, 4))
        with self.assertRaises(Refused):
            Part.read(part)

    def test_a_name_that_is_no_text(self):
        part = self.write(os.fsdecode(b"b\xff"))
        self.assertEqual(command("map", part)[0], 0)

    def test_names(self):
        self.assertEqual(parts.names("a/F.sheet", 2), (["a/F-1.sheet", "a/F-2.sheet"], "a/F.part"))
        self.assertEqual(parts.names("F.part", 1), (["F-1.sheet"], "F.part"))
        self.assertEqual(parts.names("F", 1), (["F-1"], "F.part"))

    def test_many_parts_in_a_folder(self):
        """The one whose name the sheet's begins with is looked into first."""
        self.write()
        for number in range(parts.LOOKED_MOST + 5):
            self.folder.file(f"A{number}.part", b"{}")
        self.assertIn("give", command("map", self.sheets()[0])[2])
        with mock.patch("os.scandir", side_effect=PermissionError):
            self.assertEqual(command("map", self.sheets()[0])[::2], (0, ""))


class Module(Case):
    def test_read(self):
        part = Part.read(self.write())
        self.assertEqual(part.jobs, tuple(pieces()))
        self.assertEqual([os.path.basename(name) for name in part.names], ["F-1.sheet", "F-2.sheet", "F-3.sheet"])
        nearest = part.point("12.5", 30)
        self.assertEqual((str(nearest.lo), str(nearest.hi), nearest.sheet, nearest.edge), ("2.5000", "2.5125", 1, 1))
        self.assertEqual(part.points([("12.5", 30)]), [nearest])
        self.assertEqual(part.drawn().nodes(), sum(job.map().nodes for job in part.jobs))
        self.assertEqual(part.points([]), [])

    def test_one_plate(self):
        for jobs in ([], [BRACKET, replace(BRACKET, x=BRACKET.x + 1)], [BRACKET, replace(BRACKET, m=BRACKET.m - 1)]):
            with self.assertRaises(ValueError):
                Part(jobs)
        self.assertEqual(Part([BRACKET]).map(), BRACKET.map())

    def test_refused(self):
        with self.assertRaises(Refused):
            Part([BRACKET]).point(0, "10000.01")
        with self.assertRaises(Refused):
            Part(pieces()).map(7)


class Drawings(Case):
    def drawing(self, points):
        corners = " ".join(f"{50 + 40 * (i % 2) + i / 10:g},{i:g}" for i in range(points))
        size = 'width="200mm" height="200mm" viewBox="0 0 200 200"'
        svg = f'<svg xmlns="http://www.w3.org/2000/svg" {size}><polyline points="{corners}"/></svg>'
        return self.folder.file("zigzag.svg", svg.encode())

    @needs_svgelements
    def test_a_shorter_part_tells_of_what_it_leaves_behind(self):
        said = [command("from", self.drawing(points), "--reach", "2.5", "--split", "-o", self.top / "F.sheet")[2] for points in (151, 101)]
        self.assertNotIn("from before", said[0])
        self.assertIn(f"from before, and none of its sheets: {self.top / 'F-3.sheet'}", said[1])

    @needs_svgelements
    def test_from_writes_the_part(self):
        path = self.drawing(151)
        status, out, said = command("from", path, "--reach", "2.5", "--split", "-o", self.top / "F.sheet", "--json")
        self.assertEqual(status, 0, said)
        told, part = json.loads(out), json.loads((self.top / "F.part").read_bytes())
        self.assertEqual((told["part"], len(told["files"])), (str(self.top / "F.part"), 3))
        for name in ("unit", "w", "w_hundredths", "reach_asked", "reach_written", "reach_hundredths", "bounds", "edges", "drawing"):
            self.assertEqual(part[name], told[name], name)
        self.assertEqual((part["drawing"], part["reach_asked"], part["edges"]["count"]), ("zigzag.svg", "2.5", 150))
        self.assertIn(f"F-3.sheet, and {self.top / 'F.part'}, which stands for the whole part", said)
        self.assertEqual(command("map", self.top / "F.part")[::2], (0, ""))
        self.assertEqual(json.loads(command("check", "--json", self.top / "F.part")[1])[0]["edges"], {"lines": 150, "cubics": 0})

    @needs_svgelements
    def test_all_or_none(self):
        path = self.drawing(151)
        (self.top / "F.part").mkdir()
        status, _, _ = command("from", path, "--reach", "2.5", "--split", "-o", self.top / "F.sheet")
        self.assertEqual((status, sorted(os.listdir(self.top))), (3, ["F.part", "zigzag.svg"]))
        self.assertIn("FILE.part", command("from", path, "--reach", "2.5")[2])


if __name__ == "__main__":
    unittest.main()
