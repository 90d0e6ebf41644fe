"""The examples of python/README.md run, and give what stands there."""

import doctest
import os
import re
import subprocess
import sys
import unittest

from .samples import PYTHON, ROOT, environment

README = (PYTHON / "README.md").read_text(encoding="utf-8")


class Examples(unittest.TestCase):
    def test_the_module(self):
        """All blocks in turn, run one after the other at the top of the repository."""
        blocks = re.findall(r"```pycon\n(.*?)```", README, re.DOTALL)
        self.assertEqual(len(blocks), README.count("```pycon"))
        taken = doctest.DocTestParser().get_doctest("".join(blocks), {}, "python/README.md", "README.md", 0)
        self.assertGreater(len(taken.examples), 8)
        said, before = [], os.getcwd()
        os.chdir(ROOT)
        try:
            doctest.DocTestRunner(verbose=False).run(taken, out=said.append)
        finally:
            os.chdir(before)
        self.assertEqual("".join(said), "")

    def test_what_a_shell_runs(self):
        """The commands that only read."""
        commands = re.findall(r"^    ((?:\./clearance|PYTHONPATH=|CLEARANCE_LIBRARY=).*)$", README, re.MULTILINE)
        self.assertEqual(len(commands), 4)
        for line in commands:
            with self.subTest(line):
                # The command as it would be installed, and this Python.
                line = re.sub(r" clearance ", " ./clearance ", line).replace("python3", sys.executable)
                env = {**environment(), "PYTHON": sys.executable}
                done = subprocess.run(line, shell=True, cwd=ROOT, env=env, capture_output=True, check=False)
                self.assertEqual((done.returncode, done.stderr), (0, b""))
                self.assertTrue(done.stdout)


if __name__ == "__main__":
    unittest.main()
