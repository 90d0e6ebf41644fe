"""How the command starts: what it loads, and an interrupt while it loads."""

import os
import subprocess
import sys
import tempfile
import unittest
from unittest import mock

from clearance import __main__ as start
from clearance import cli

from .samples import EXAMPLES, PYTHON, command, command_line, environment

LOADED = """
import sys
from clearance import cli
try:
    cli.main(sys.argv[1:])
except SystemExit:
    pass
print(*sorted(name for name in sys.modules if name.startswith("clearance.commands.") or name in ("argparse", "ctypes", "ezdxf")))
"""


def loaded(*words):
    """The modules of interest that a command line loads."""
    done = subprocess.run([sys.executable, "-c", LOADED, *words], capture_output=True, check=True, cwd=PYTHON, env=environment())
    return done.stdout.decode().splitlines()[-1].split()


class Interrupted:
    """An import that is interrupted."""

    def find_spec(self, name, _path=None, _target=None):
        if name == "clearance.cli":
            raise KeyboardInterrupt


class Start(unittest.TestCase):
    def test_a_verb_is_loaded_when_it_is_used(self):
        self.assertEqual(loaded("--version"), [])
        self.assertEqual(loaded("check", "no such sheet"), ["argparse", "clearance.commands.check", "ctypes"])
        self.assertEqual(loaded("from", "--help"), ["argparse", "clearance.commands.from_drawing", "ctypes"])

    def test_help_and_mistakes_tell_of_all_verbs(self):
        told = command("--help")[1]
        for verb, module in cli.verbs().items():
            self.assertIn(verb, told)
            self.assertIn(module.SUMMARY.split()[-1], told)
        status, out, err = command("chek")
        self.assertEqual((status, out), (2, ""))
        self.assertIn("'check'", err)
        self.assertEqual(command()[0], 2)

    @unittest.skipUnless(os.path.exists("/dev/full"), "there is no full device here")
    def test_what_could_not_be_said_is_a_write_that_failed(self):
        with tempfile.TemporaryDirectory() as folder, open("/dev/full", "wb") as full:
            words = command_line("advise", EXAMPLES[0], "--also", EXAMPLES[0], "--write", "-o", f"{folder}/F.sheet")
            done = subprocess.run(words, stdout=subprocess.PIPE, stderr=full, check=False, env=environment())
            self.assertEqual((done.returncode, done.stdout, len(os.listdir(folder))), (3, b"", 3))

    def test_an_interrupt_while_loading(self):
        kept = {name: module for name, module in sys.modules.items() if name != "clearance.cli"}
        with mock.patch.dict(sys.modules, kept, clear=True), mock.patch.object(sys, "meta_path", [Interrupted(), *sys.meta_path]):
            with mock.patch.object(sys.modules["clearance"], "cli", create=True):
                del sys.modules["clearance"].cli
                self.assertEqual(start.main(), 130)
                sys.modules["clearance"].cli = cli

    def test_an_interrupt_while_working(self):
        with mock.patch.object(cli, "main", side_effect=KeyboardInterrupt):
            self.assertEqual(start.main(), 130)


if __name__ == "__main__":
    unittest.main()
