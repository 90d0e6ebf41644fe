"""A cell's answer from a tree without recursion. The language asks for a measure of every cycle of calls, in a folder of proofs/ whose name begins
with '+'. What draws the plate has one, the quartering of the plate; no crate that it stands on has any, so none on the way from a tree in the store
to a cell's answer, by quarters or by rows."""

import tempfile
import unittest
from pathlib import Path

TOP = Path(__file__).resolve().parent.parent
# The crate that draws a plate from its trees, and its one cycle.
DRAWS, QUARTERS = "drawing", "crates/drawing/proofs/+draw"


def stands_on(name, top=TOP):
    """The crates that a crate stands on by crates.txt, without itself."""
    lines = [line for line in (top / "crates.txt").read_text(encoding="utf-8").splitlines() if ":" in line and not line.startswith("#")]
    listed = {head.split()[0]: named.split() for head, named in (line.split(":") for line in lines)}
    found, pending = set(), listed[name]
    while pending:
        crate, *pending = pending
        if crate not in found:
            found.add(crate)
            pending += listed.get(crate, [])
    return found


def cycles(names, top=TOP):
    return sorted(str(folder.relative_to(top)) for name in names for folder in (top / "crates" / name / "proofs").rglob("+*"))


class Recursion(unittest.TestCase):
    def test_none_below_the_drawing(self):
        crates = stands_on(DRAWS)
        self.assertLessEqual({"nodes", "strip_tests", "search", "open_edges", "columns", "levels", "rows"}, crates)
        self.assertEqual(cycles(crates), [])

    def test_the_quartering_alone_in_the_drawing(self):
        self.assertEqual(cycles([DRAWS]), [QUARTERS])


class PlantedFaults(unittest.TestCase):
    """A cycle is planted in a copy of the folders, in each crate in turn, and has to be found."""

    def found(self, crate, listed):
        with tempfile.TemporaryDirectory() as name:
            top = Path(name)
            (top / "crates.txt").write_text(listed, encoding="utf-8")
            (top / "crates" / crate / "proofs/calls/+ask").mkdir(parents=True)
            return cycles(stands_on(DRAWS, top), top)

    def test_in_each_crate_below(self):
        listed = (TOP / "crates.txt").read_text(encoding="utf-8")
        for crate in stands_on(DRAWS):
            with self.subTest(crate):
                self.assertEqual(self.found(crate, listed), [f"crates/{crate}/proofs/calls/+ask"])
        self.assertEqual(self.found("forests", listed), [])

    def test_in_a_crate_that_comes_to_be_below(self):
        listed = (TOP / "crates.txt").read_text(encoding="utf-8")
        for line in "\nsearch: ", "\nrows: ", "\ndrawing: ":
            with self.subTest(line):
                self.assertEqual(listed.count(line), 1)
                self.assertEqual(self.found("walks", listed.replace(line, line + "walks ") + "walks: nodes\n"), ["crates/walks/proofs/calls/+ask"])


if __name__ == "__main__":
    unittest.main()
