"""The test command itself, with a stub in the place of each step: its last line is rt's count where every step passed and rt could try every edit,
and no such line elsewhere."""

import os
import re
import shutil
import subprocess
import tempfile
import unittest
from pathlib import Path

TOP = Path(__file__).resolve().parent.parent
PROOFS = "rt ci"
COUNT = "7 passed, 0 failed"
# How rt says that all is well, with words in the place of what it says of edits; and all that it says so, its last line among it.
OK = "rt: ok; handles allowed: none{}; every proof and must-fail edit was done in this run"
EDITS = "; must-fail edits: 2 refused"
SAID = OK.format(EDITS) + "\n" + COUNT
# Tells its call, and does what the test asks of that call.
STUB = """#!/bin/sh
call="$NAME $*"
call=${call% }
echo "$call" >>"$CALLS"
[ "$call" != "rt ci" ] || echo "$SAID"
[ "$call" != "$BAD" ] || eval "$DOES"
"""


def steps():
    """The steps of the test command, in their order."""
    return re.findall(r"^step (?:kept )?(.*)$", (TOP / "test").read_text(encoding="utf-8"), re.M)


def lay_stub(folder, command):
    """A command with a place stands there, any other where PATH leads."""
    place = folder / (command if "/" in command else "path/" + command)
    place.parent.mkdir(parents=True, exist_ok=True)
    place.write_text(STUB.replace("$NAME", command), encoding="utf-8")
    place.chmod(0o755)


def run(bad="", does="exit 3", said=SAID, left=()):
    """Runs the test command over what an earlier run left among its logs; the step named `bad` does what is asked: the status, the last line and the
    steps that were run."""
    with tempfile.TemporaryDirectory() as name:
        folder, calls = Path(name), Path(name) / "calls"
        shutil.copy(TOP / "test", folder / "test")
        (folder / "build/log").mkdir(parents=True)
        for file, text in dict(left).items():
            (folder / "build/log" / file).write_text(text, encoding="utf-8")
        for step in steps():
            lay_stub(folder, step.split()[0])
        env = {**os.environ, "PATH": f"{folder / 'path'}:{os.environ['PATH']}", "CALLS": str(calls), "BAD": bad, "DOES": does, "SAID": said}
        done = subprocess.run([folder / "test"], env=env, stdout=subprocess.PIPE, stderr=subprocess.STDOUT, text=True, timeout=60, check=False)
        return done.returncode, done.stdout.splitlines()[-1], calls.read_text().splitlines()


class LastLine(unittest.TestCase):
    def fails_at(self, step, **asked):
        status, last, ran = run(**asked)
        self.assertNotEqual(status, 0)
        self.assertEqual(re.sub(" kept", "", last), "test: failed: " + step)
        self.assertEqual(ran, steps()[: steps().index(step) + 1])

    def test_all_passed(self):
        self.assertEqual(run(), (0, COUNT, steps()))

    def test_each_step_that_fails(self):
        self.assertIn(PROOFS, steps())
        for step in steps():
            with self.subTest(step):
                self.fails_at(step, bad=step)

    def test_stopped_by_a_signal(self):
        """TERM alone: a shell that is started with another one ignored cannot heed it."""
        for step in steps()[-1], steps()[steps().index(PROOFS) + 1]:
            with self.subTest(step):
                self.fails_at(step, bad=step, does="kill -TERM $PPID")

    def test_proofs_without_their_line(self):
        well = OK.format(EDITS) + "\n"
        some = " (drawing and the crates below alone: not the gate)"
        for last in "", "7 passed, 1 failed", "0 passed, 0 failed", COUNT + "\nrt: and more", COUNT + some:
            with self.subTest(last):
                self.fails_at(PROOFS, said=well + last)

    def test_words_behind_the_count(self):
        """The command's own last line is the count alone."""
        self.assertEqual(run(said=SAID + " (in so many minutes)"), (0, COUNT, steps()))

    def test_edits_that_are_bad(self):
        """rt passes them: its status is 0 and its count is whole."""
        for edits in EDITS + ", 1 bad", EDITS + ", 10 bad", EDITS + ", 1 of them only by a limit, 2 bad", "; must-fail edits: 0 refused, 1 bad":
            with self.subTest(edits):
                self.fails_at(PROOFS, said="rt: note: bad must-fail edits\n" + OK.format(edits) + "\n" + COUNT)

    def test_edits_that_are_well(self):
        for edits in EDITS, EDITS + ", 1 of them only by a limit", EDITS + ", 0 bad":
            with self.subTest(edits):
                self.assertEqual(run(said=OK.format(edits) + "\n" + COUNT), (0, COUNT, steps()))

    def test_no_word_of_the_edits(self):
        for said in COUNT, "rt: " + COUNT + "\n" + COUNT, "ok; must-fail edits: 2 refused\n" + COUNT:
            with self.subTest(said):
                self.fails_at(PROOFS, said=said)

    def test_what_an_earlier_run_left(self):
        """Its status counts for nothing where rt fails in this one and says all the same that all is well."""
        status, last, _ = run(bad=PROOFS, left={"ci.log": SAID + "\n", "ci.log.status": "0\n"})
        self.assertNotEqual(status, 0)
        self.assertEqual(last, "test: failed: kept " + PROOFS)


class Gate(unittest.TestCase):
    def test_rt_is_run_over_everything(self):
        """With no names, once, and by the gate's own script in the end."""
        self.assertEqual([step for step in steps() if step.split()[0] == "rt"], [PROOFS])
        script = (TOP / ".ci/run").read_text(encoding="utf-8").splitlines()
        self.assertEqual(script[-1], "exec ./test")


if __name__ == "__main__":
    unittest.main()
