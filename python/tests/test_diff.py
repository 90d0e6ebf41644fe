"""The verb `diff`: counts of letters that changed, each cell, and maps that cannot be compared."""

import json
import unittest

from clearance import sheets
from tests.samples import MAP, Folder, command, striped_map

OTHER = MAP.replace(b"(row CCDIIDCC)\n(row CCDIIDCC)", b"(row CCDDIDCC)\n(row CCDIDDCI)")


class Diff(unittest.TestCase):
    def setUp(self):
        self.folder = Folder()
        self.addCleanup(self.folder.cleanup)
        self.old = self.folder.file("old", MAP)
        self.new = self.folder.file("new", OTHER)

    def diff(self, *arguments, **options):
        return command("diff", *arguments, **options)

    def test_the_same(self):
        self.assertEqual(self.diff(self.old, self.old), (0, "the same\n", ""))
        self.assertEqual(self.diff(self.old, self.old, "--cells"), (0, "the same\n", ""))
        answer = json.loads(self.diff(self.old, self.old, "--json", "--cells")[1])
        self.assertEqual(answer, {"same": True, "cells": 64, "different": 0, "changes": [], "each": []})

    def test_counts(self):
        told = "3 of 64 cells differ:\nI to D  2\nC to I  1\n"
        self.assertEqual(self.diff(self.old, self.new), (1, told, ""))
        back = "3 of 64 cells differ:\nD to I  2\nI to C  1\n"
        self.assertEqual(self.diff(self.new, self.old), (1, back, ""))

    def test_each_cell(self):
        status, told, _ = self.diff(self.old, self.new, "--cells")
        self.assertEqual(status, 1)
        self.assertEqual(told.splitlines()[3:], ["column row old new:", "3 3 I D", "4 4 I D", "7 4 C I"])

    def test_json(self):
        status, told, _ = self.diff(self.old, self.new, "--json")
        changes = [{"old": "I", "new": "D", "cells": 2}, {"old": "C", "new": "I", "cells": 1}]
        self.assertEqual((status, json.loads(told)), (1, {"same": False, "cells": 64, "different": 3, "changes": changes}))
        each = json.loads(self.diff(self.old, self.new, "--json", "--cells")[1])["each"]
        self.assertEqual(each[2], {"column": 7, "row": 4, "old": "C", "new": "I"})

    def test_counts_add_up(self):
        rows, others = sheets.read_map(striped_map(64)), sheets.read_map(striped_map(64))[::-1]
        text = "(map 64\n" + "".join(f"(row {row})\n" for row in others) + ")\n"
        paths = self.folder.file("a", striped_map(64)), self.folder.file("b", text.encode("ascii"))
        answer = json.loads(self.diff(*paths, "--json", "--cells")[1])
        wanted = sum(a != b for one, other in zip(rows, others) for a, b in zip(one, other))
        self.assertEqual(answer["different"], wanted)
        self.assertEqual(sum(change["cells"] for change in answer["changes"]), wanted)
        for cell in answer["each"]:
            self.assertEqual(rows[cell["row"]][cell["column"]], cell["old"])
            self.assertEqual(others[cell["row"]][cell["column"]], cell["new"])

    def test_standard_input(self):
        self.assertEqual(self.diff("-", self.new, stdin=MAP), self.diff(self.old, self.new))
        self.assertEqual(self.diff(self.old, "-", stdin=OTHER), self.diff(self.old, self.new))
        self.assertEqual(self.diff("-", "-", stdin=MAP)[:2], (2, ""))

    def test_what_cannot_be_compared(self):
        larger = self.folder.file("larger", striped_map(16))
        error = f"clearance: {larger}: 16 cells a side, but {self.old} has 8\n"
        self.assertEqual(self.diff(self.old, larger), (1, "", error))
        broken = self.folder.file("broken", MAP[:-1])
        status, told, error = self.diff(self.old, broken)
        self.assertEqual((status, told), (1, ""))
        self.assertTrue(error.startswith(f"clearance: {broken}:10:2: "))
        self.assertEqual(self.diff(self.old, self.folder.file("refused", b"(refused 5)\n"))[:2], (1, ""))
        self.assertEqual(self.diff(self.old, "no such map")[:2], (3, ""))
        self.assertEqual(self.diff(self.old)[:2], (2, ""))


if __name__ == "__main__":
    unittest.main()
