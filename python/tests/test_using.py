"""docs/USING.md: its commands print what stands below them there, and draw the pictures beside it."""

import os
import re
import subprocess
import tempfile
import unittest
from pathlib import Path

from .samples import ROOT, command_line, environment
from .test_from import needs_ezdxf

GUIDE = ROOT / "docs" / "USING.md"


def commands():
    """Each command of the guide with the lines below it."""
    found = re.findall(r"^    \$ clearance (.*)\n((?:    (?!\$ ).*\n)*)", GUIDE.read_text(encoding="utf-8"), re.M)
    return [(words, re.sub("^    ", "", printed, flags=re.M)) for words, printed in found]


class Guide(unittest.TestCase):
    @needs_ezdxf
    def test_the_commands_and_the_pictures(self):
        with tempfile.TemporaryDirectory() as folder:
            os.symlink(ROOT / "examples", Path(folder) / "examples")
            for words, printed in commands():
                line, _, target = words.partition(" > ")
                words_run = command_line(*line.split())
                done = subprocess.run(words_run, cwd=folder, env=environment(), capture_output=True, text=True, check=False)
                self.assertEqual(done.returncode, 0, words)
                if target:
                    (Path(folder) / target).write_text(done.stdout)
                else:
                    self.assertEqual(done.stdout + done.stderr, printed, words)
            for name in ("flange.svg", "nested.svg"):
                self.assertEqual((Path(folder) / name).read_bytes(), (GUIDE.parent / name).read_bytes(), f"docs/{name} is older than look")

    def test_there_are_commands(self):
        verbs = {words.split()[0] for words, _ in commands()}
        self.assertLessEqual({"from", "check", "look", "rects", "map", "spot", "advise"}, verbs)


if __name__ == "__main__":
    unittest.main()
