"""What the tests share: the sample sheet, the examples, the stored sheets, and ways to run the command."""

import io
import os
import subprocess
import sys
import tempfile
from contextlib import ExitStack, redirect_stderr
from pathlib import Path
from unittest import mock

from clearance import cli

PYTHON = Path(__file__).resolve().parent.parent
ROOT = PYTHON.parent
EXAMPLES = sorted((ROOT / "examples").glob("*.sheet"))
# Sheets of all kinds, right and wrong.
STORED = sorted(path for folder in ("maps", "sheets") for path in (ROOT / "differential" / "stored" / folder / "data").iterdir())

SHEET = b"""(job
(plate -8 -8 4)
(cell 1)
(reach 4)
(grain 1)
(edge (0 0) (0 0) (0 0) (0 0))
)
"""

MAP = b"""(map 8
(row CCCCCCCC)
(row CCCCCCCC)
(row CCDDDDCC)
(row CCDIIDCC)
(row CCDIIDCC)
(row CCDDDDCC)
(row CCCCCCCC)
(row CCCCCCCC)
)
"""

EDGE = b"(edge (0 0) (0 0) (0 0) (0 0))\n"
LINE = b"(line (0 0) (0 0))\n"


def striped_map(side):
    """A made-up map in which every letter turns up, with many short runs."""
    rows = [bytes(b"CID"[(x // 3 + y) % 3] for x in range(side)) for y in range(side)]
    return b"(map %d\n" % side + b"".join(b"(row %s)\n" % row for row in rows) + b")\n"


def command(*words, stdin=b""):
    """Runs the command in this process, which is quick: its status, standard output and standard error."""
    status, output, errors = command_bytes(*words, stdin=stdin)
    return status, output.decode("utf-8"), errors


def command_bytes(*words, stdin=b""):
    """The same with the bytes of standard output."""
    output, errors = io.TextIOWrapper(io.BytesIO(), encoding="utf-8"), io.StringIO()
    with ExitStack() as stack:
        stack.enter_context(mock.patch("sys.stdin", io.TextIOWrapper(io.BytesIO(stdin))))
        stack.enter_context(mock.patch("sys.stdout", output))
        stack.enter_context(redirect_stderr(errors))
        try:
            status = cli.main([str(word) for word in words])
        except SystemExit as ended:  # bad usage, or help
            status = ended.code
        output.flush()
    return status, output.buffer.getvalue(), errors.getvalue()


def environment():
    """What a process needs to find the package."""
    return {**os.environ, "PYTHONPATH": str(PYTHON)}


def command_line(*words):
    return [sys.executable, "-m", "clearance", *map(str, words)]


def run(*words, stdin=b"", stdout=subprocess.PIPE):
    """Runs the command as a user does."""
    line, env = command_line(*words), environment()
    return subprocess.run(line, input=stdin, stdout=stdout, stderr=subprocess.PIPE, env=env, check=False)


def run_into_closed_pipe(*words):
    """Runs the command with nobody reading its standard output any more: its status and standard error."""
    reading, writing = os.pipe()
    os.close(reading)
    try:
        done = run(*words, stdout=writing)
    finally:
        os.close(writing)
    return done.returncode, done.stderr.decode()


class Folder(tempfile.TemporaryDirectory):
    """A folder for the files of one test."""

    def file(self, name, data):
        path = Path(self.name) / name
        path.write_bytes(data)
        return path
