"""Checks: refusals with their places, figures that are the library's, and each warning with a sheet that has it and one that has not."""

import json
import os
import unittest

from clearance import Job, inputs
from clearance.findings import findings
from clearance.sheets import read_sheet
from tests.samples import EDGE, EXAMPLES, ROOT, SHEET, Folder, command, run, run_into_closed_pipe

BRACKET = ROOT / "examples" / "bracket.sheet"
# A square of 10 mm in the middle of a plate of 20.48 mm, with nothing to warn of.
SQUARE = b"""(job
(plate -524 -524 11)
(cell 4)
(reach 100)
(grain 8)
(line (0 0) (1000 0))
(line (1000 0) (1000 1000))
(line (1000 1000) (0 1000))
(edge (0 1000) (0 700) (0 300) (0 0))
)
"""


def found(data):
    """The warnings of a sheet by their kinds."""
    given = inputs.Input("sheet", data, read_sheet(data), Job.from_sheet(data))
    return {finding.kind: finding for finding in findings(inputs.Work("sheet", (given,)))}


class Warnings(unittest.TestCase):
    def changed(self, *changes):
        """The warnings of the square with changes."""
        data = SQUARE
        for old, new in changes:
            self.assertIn(old, data)
            data = data.replace(old, new)
        return found(data)

    def test_nothing_to_warn_of(self):
        self.assertEqual(found(SQUARE), {})

    def test_off_the_plate(self):
        for corner in (b"1 -524", b"-524 1", b"-1049 -524", b"-524 -1049"):
            self.assertEqual(list(self.changed((b"-524 -524", corner))), ["plate"], corner)
        told = self.changed((b"-524 -524", b"1 -524"))["plate"]
        self.assertEqual(told.line, 6)
        self.assertIn("3 of 4 edges go off the plate", told.text)
        self.assertEqual(self.changed((b"-524 -524", b"-1048 -524"))["border"].line, 6)

    def test_close_to_the_border(self):
        for corner in (b"-99 -524", b"-524 -99", b"-949 -524", b"-524 -949"):
            self.assertEqual(list(self.changed((b"-524 -524", corner))), ["border"], corner)
        for corner in (b"-100 -524", b"-524 -100", b"-948 -524", b"-524 -948"):
            self.assertEqual(self.changed((b"-524 -524", corner)), {}, corner)
        told = self.changed((b"-524 -524", b"-949 -524"))["border"]
        self.assertEqual(told.line, 6)
        self.assertIn("3 of 4 edges come closer than the reach", told.text)

    def test_the_curve_counts_and_not_its_control_points(self):
        # The control points go down to -400, the curve to -300 exactly.
        bent = (b"(line (0 0) (1000 0))", b"(edge (0 0) (0 -400) (1000 -400) (1000 0))")
        self.assertEqual(self.changed(bent, (b"-524 -524", b"-524 -400")), {})
        self.assertEqual(list(self.changed(bent, (b"-524 -524", b"-524 -399"))), ["border"])

    def test_reach_below_the_band(self):
        # E is 3 * 8 + 1.5 * 16 = 48.
        self.assertEqual(self.changed((b"(reach 100)", b"(reach 48)")), {})
        told = self.changed((b"(reach 100)", b"(reach 47)"))
        self.assertEqual(list(told), ["reach"])
        self.assertEqual(told["reach"].line, 4)
        self.assertIn("0.47 mm, is below the band E, 0.48 mm", told["reach"].text)
        # Cells in reach there may be all the same: the sample has four.
        self.assertIn("may", told["reach"].text)
        self.assertIn("reach", found(SHEET))
        self.assertEqual(Job.from_sheet(SHEET).map().counts()["I"], 4)

    def test_half_a_hundredth_of_the_band(self):
        # E is 3 * 10 + 1.5 * 1 = 31.5.
        fine = SHEET.replace(b"(cell 1)", b"(cell 0)").replace(b"(grain 1)", b"(grain 10)")
        self.assertIn("0.315 mm", found(fine.replace(b"(reach 4)", b"(reach 31)"))["reach"].text)
        self.assertNotIn("reach", found(fine.replace(b"(reach 4)", b"(reach 32)")))

    def test_millimetres_instead_of_hundredths(self):
        small = SQUARE.replace(b"1000", b"499").replace(b"(0 700)", b"(0 400)")
        self.assertEqual(list(found(small)), ["size"])
        self.assertIn("4.99 by 4.99 mm", found(small)["size"].text)
        self.assertEqual(found(SQUARE.replace(b"1000", b"500")), {})
        narrow = SQUARE.replace(b"1000)", b"10)").replace(b"(0 1000) (0 700) (0 300)", b"(0 10) (0 7) (0 3)")
        self.assertEqual(found(narrow), {})

    def test_gaps(self):
        told = self.changed((b"(line (1000 0) (1000 1000))", b"(line (1003 0) (1000 996))"))["gap"]
        # Four ends are free: 3 apart at the first corner, 4 at the second.
        self.assertIn("4 ends of edges meet no other end", told.text)
        self.assertIn("is 0.04 mm", told.text)
        self.assertEqual(told.line, 7)

    def test_a_gap_is_not_the_edges_own_length(self):
        # A line of 0.05 mm in the square's middle: from its first end the nearest corners are root(5^2 + 5^2) mm away.
        told = self.changed((b"(edge (0 1000)", b"(line (500 500) (505 500))\n(edge (0 1000)"))["gap"]
        self.assertIn("2 ends of edges meet no other end", told.text)
        self.assertIn("is 7.0711 mm", told.text)
        self.assertEqual(told.line, 9)

    def test_an_edge_that_is_missing(self):
        told = self.changed((b"(line (1000 0) (1000 1000))\n", b""))["gap"]
        self.assertIn("2 ends of edges meet no other end", told.text)
        self.assertIn("is 10 mm", told.text)

    def test_closed_edges_have_no_gap(self):
        loop = b"(edge (0 0) (3000 2000) (-2000 2000) (0 0))\n"
        self.assertNotIn("gap", found(SHEET.replace(EDGE, loop)))
        self.assertNotIn("gap", found(SHEET))
        self.assertNotIn("gap", found(SQUARE.replace(b"(line (0 0)", loop + b"(line (0 0)")))
        alone = found(SHEET.replace(EDGE, b"(line (0 0) (300 400))\n"))["gap"]
        self.assertIn("2 ends of edges meet no other end", alone.text)
        self.assertIn("is 5 mm", alone.text)


class Check(unittest.TestCase):
    def setUp(self):
        self.folder = Folder()
        self.addCleanup(self.folder.cleanup)
        self.square = self.folder.file("square", SQUARE)
        self.sample = self.folder.file("sample", SHEET)
        self.broken = self.folder.file("broken", SHEET.replace(b"(cell 1)", b"(cell 1.5)"))

    def data(self, *words, stdin=b""):
        status, text, error = command("check", "--json", *words, stdin=stdin)
        return status, json.loads(text), error

    def test_figures(self):
        status, text, error = command("check", self.square)
        self.assertEqual((status, error), (0, ""))
        rows = {line[2:11].strip(): line[12:] for line in text.splitlines()[1:]}
        self.assertEqual(rows["plate"], "20.48 mm a side, lower left corner at (-5.24, -5.24) mm")
        self.assertEqual(rows["cell"], "0.16 mm a side, 128 by 128 cells")
        self.assertEqual(rows["grain"], "8 (0.08 mm)")
        self.assertEqual(rows["edges"], "4: 3 straight, 1 cubic")
        self.assertEqual(rows["outline"], "10 by 10 mm, from (0, 0) to (10, 10) mm")
        self.assertEqual(rows["band E"], "0.48 mm")
        self.assertEqual(set(rows), {"plate", "cell", "reach", "grain", "edges", "outline", "trees", "clearmap", "band E", "cells"})

    def test_examples(self):
        status, told, error = self.data(*EXAMPLES)
        self.assertEqual((status, error), (0, ""))
        for path, one in zip(EXAMPLES, told):
            drawn = Job.from_sheet(path.read_bytes()).map()
            self.assertEqual((one["file"], one["accepted"], one["accepted_by_clearmap"]), (str(path), True, True))
            self.assertEqual((one["nodes"], one["store_numbers"]), (drawn.nodes, 11 * drawn.nodes))
            self.assertEqual({letter: cells["count"] for letter, cells in one["cells"].items()}, drawn.counts())
            self.assertAlmostEqual(sum(cells["per_cent"] for cells in one["cells"].values()), 100, 3)

    def test_more_store_than_the_program_lends(self):
        for grain, enough in ((30, True), (20, False)):
            data = BRACKET.read_bytes().replace(b"(grain 30)", b"(grain %d)" % grain)
            status, told, _ = self.data("-", stdin=data)
            self.assertEqual((status, told[0]["accepted_by_clearmap"]), (0, enough))
            self.assertEqual(told[0]["store_numbers"] <= 16_379, enough)
        self.assertIn("refuses it with 6 (store)", command("check", "-", stdin=data)[1])

    def test_refused(self):
        status, text, error = command("check", self.broken)
        self.assertEqual((status, text), (1, ""))
        self.assertTrue(error.startswith(f"clearance: {self.broken}:3:8: refused 1 (form): "), error)
        status, told, error = self.data(self.square, self.broken, self.sample)
        self.assertEqual(status, 1)
        self.assertIn(":3:8: refused 1", error)
        self.assertEqual([one["accepted"] for one in told], [True, False, True])
        refused = told[1]["refused"]
        self.assertEqual((refused["number"], refused["word"], refused["line"], refused["column"]), (1, "form", 3, 8))

    def test_the_others_are_told(self):
        status, text, _ = command("check", self.broken, self.square)
        self.assertEqual(status, 1)
        self.assertTrue(text.startswith(f"{self.square}: accepted\n"))

    def test_refused_for_the_grain(self):
        long = SHEET.replace(EDGE, b"(line (0 0) (999999 0))\n")
        status, _, error = command("check", "-", stdin=long)
        self.assertEqual(status, 1)
        # All the store there can be is lent, so this is the grain that is not too long.
        self.assertIn("clearance: -:6:1: refused 5 (long): ", error)
        self.assertTrue(error.endswith("; the smallest grain that is accepted is 489\n"), error)

    def test_warnings_and_strict(self):
        self.assertEqual(command("check", "--strict", self.square)[0], 0)
        status, text, error = command("check", self.sample)
        self.assertEqual((status, error), (0, ""))
        self.assertIn(f"{self.sample}:4: warning: the reach", text)
        self.assertIn(f"{self.sample}:6: warning: the outline", text)
        self.assertEqual(command("check", "--strict", self.sample)[:2], (1, text))
        status, told, _ = self.data("--strict", self.square, self.sample)
        self.assertEqual((status, [len(one["warnings"]) for one in told]), (1, [0, 2]))

    def test_unreadable(self):
        """The others are told all the same."""
        status, text, error = command("check", "no such sheet", self.square, self.broken)
        self.assertEqual((status, text), (3, command("check", self.square)[1]))
        self.assertTrue(error.startswith("clearance: no such sheet: "))
        status, told, _ = self.data("no such sheet", self.square)
        self.assertEqual((status, [one["accepted"] for one in told]), (3, [False, True]))
        self.assertIn("no such sheet: ", told[0]["message"])

    def test_usage(self):
        self.assertIn("clearance check part.sheet", command("check", "--help")[1])
        for words in ((), ("--no-such", self.square), ("-", "-")):
            status, text, _ = command("check", *words)
            self.assertEqual((status, text), (2, ""))

    def test_as_a_process(self):
        done = run("check", "-", stdin=SQUARE)
        self.assertEqual((done.returncode, done.stderr), (0, b""))
        self.assertIn(b"-: accepted", done.stdout)
        self.assertEqual(run_into_closed_pipe("check", self.square), (3, ""))

    @unittest.skipUnless(os.path.exists("/dev/full"), "this system has no full device")
    def test_no_room_to_write(self):
        with open("/dev/full", "wb") as full:
            self.assertEqual(run("check", self.square, stdout=full).returncode, 3)


if __name__ == "__main__":
    unittest.main()
