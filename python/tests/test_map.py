"""The verb `map` beside the program `clearmap`, byte for byte, and the verb `spot`; their statuses and what they say."""

import io
import json
import os
import subprocess
import sys
import tempfile
import unittest
from pathlib import Path
from unittest import mock

from clearance import Job, cli, console, library

from .samples import command_bytes as command
from .samples import run as process
from .stored import CLEARMAP, MAPS, SHEETS, TOP, examples, refusal_in, run, stored

PROGRAM = ["--store", str(library.PROGRAM_STORE)]
BRACKET = TOP / "examples" / "bracket.sheet"


class Maps(unittest.TestCase):
    def test_stored(self):
        """As much lent as by the program: its text for everything stored."""
        for name, sheet, answer in [*stored(MAPS), *examples()]:
            with self.subTest(name):
                status, out, said = command("map", *PROGRAM, "-", stdin=sheet)
                self.assertEqual(out, answer)
                self.assertEqual(status, 1 if refusal_in(answer) else 0)
                self.assertEqual(bool(said), bool(status))

    def test_beside_the_program(self):
        if not CLEARMAP.exists():
            self.skipTest("clearmap is not built: tools/prove build clearmap")
        for name, sheet, _ in [*stored(MAPS), *stored(SHEETS)]:
            with self.subTest(name):
                self.assertEqual(command("map", *PROGRAM, "-", stdin=sheet)[1], run(sheet).stdout)

    def test_no_sheet_lacks_store(self):
        for name, sheet, answer in stored(MAPS):
            if refusal_in(answer) == 6:
                status, out, _ = command("map", "-", stdin=sheet)
                self.assertEqual((status, out), (0, Job.from_sheet(sheet).map().text()), name)

    def test_each_its_own_file(self):
        with tempfile.TemporaryDirectory() as folder:
            sheets = sorted((TOP / "examples").glob("*.sheet"))
            status, out, said = command("map", "-o", Path(folder) / "new", *sheets)
            self.assertEqual((status, said, out.count(b"\n")), (0, "", len(sheets)))
            for sheet in sheets:
                self.assertEqual((Path(folder) / "new" / f"{sheet.stem}.map").read_bytes(), sheet.with_suffix(".map").read_bytes())
            bad = Path(folder) / "bad.sheet"
            bad.write_bytes(b"(job\r\n")
            status, out, said = command("map", "--json", "-o", folder, bad, BRACKET)
            self.assertEqual(status, 1)
            self.assertIn("bad.sheet:1:5: refused 1 (form)", said)
            told = json.loads(out)
            self.assertEqual([one["refusal"] if one["status"] else one["nodes"] for one in told], [1, 1008])
            self.assertFalse((Path(folder) / "bad.map").exists())

    def test_one_plate(self):
        """Half the edges each, drawn as one: never clear or in reach where the whole is not, and the exact letters of each."""
        job = Job.from_sheet(BRACKET.read_bytes())
        with tempfile.TemporaryDirectory() as folder:
            paths, maps = [], []
            for index, edges in enumerate([job.edges[:5], job.edges[5:]]):
                part = Job(job.x, job.y, job.n, job.m, job.reach, edges, job.grain + index)
                paths.append(Path(folder) / f"{index}.sheet")
                paths[-1].write_bytes(part.to_sheet())
                maps.append(part.map())
            status, out, _ = command("map", *paths)
            self.assertEqual((status, out), (0, library_joined(maps)))
            other = Path(folder) / "other.sheet"
            other.write_bytes(Job(job.x, job.y, job.n, job.m + 1, job.reach, job.edges).to_sheet())
            status, out, said = command("map", paths[0], other)
            self.assertEqual((status, out), (1, b""))
            self.assertIn("other.sheet:3:7: another plate or cell", said)

    def test_statuses(self):
        with tempfile.TemporaryDirectory() as folder:
            self.assertEqual(command("map", BRACKET)[0], 0)
            self.assertEqual(command("map", *PROGRAM, "-", stdin=b"")[:2], (1, b"(refused 1)\n"))
            self.assertEqual(command("map", "--store", "7", BRACKET)[:2], (1, b"(refused 6)\n"))
            for words in [["map"], ["nap"], [], *(["map", *more, BRACKET] for more in (["--store", "-1"], ["--store", "x"], ["--json"]))]:
                self.assertEqual(command(*words)[:2], (2, b""), words)
            self.assertEqual(command("map", "-", "-", stdin=b"")[0], 2)
            self.assertEqual(command("map", "-o", folder, "-")[0], 2)
            self.assertEqual(command("map", "-o", folder, BRACKET, BRACKET)[0], 2)
            self.assertEqual(command("map", Path(folder) / "none.sheet")[:2], (3, b""))
            self.assertEqual(command("map", folder)[0], 3)
            self.assertEqual(command("map", "-o", BRACKET, BRACKET)[0], 3)

    def test_output_that_fails(self):
        with open("/dev/full", "wb") as full:
            done = process("map", BRACKET, stdout=full)
        self.assertEqual(done.returncode, 3)
        self.assertIn(b"clearance: standard output: ", done.stderr)

    def test_all_is_written_or_it_fails(self):
        """Also where Python's standard output is not buffered and takes a part at a time."""
        line = f"ulimit -f 8; exec {sys.executable} -m clearance map {TOP / 'examples' / 'baffle.sheet'}"
        for unbuffered in ({}, {"PYTHONUNBUFFERED": "1"}):
            with tempfile.TemporaryDirectory() as folder, open(Path(folder) / "map", "wb") as out:
                environment = {**os.environ, "PYTHONPATH": str(TOP / "python"), **unbuffered}
                done = subprocess.run(["bash", "-c", line], stdout=out, stderr=subprocess.PIPE, env=environment, check=False)
                self.assertEqual(done.returncode, 3)
                self.assertIn(b"clearance: standard output: ", done.stderr)

    def test_a_reader_who_has_gone(self):
        """The maps are drawn all the same."""
        with tempfile.TemporaryDirectory() as folder:
            reading, writing = os.pipe()
            os.close(reading)
            sheets = sorted((TOP / "examples").glob("*.sheet"))
            self.assertEqual(process("map", "-o", folder, *sheets, stdout=writing).returncode, 3)
            os.close(writing)
            self.assertEqual(len(os.listdir(folder)), len(sheets))

    def test_without_standard_error(self):
        line = f"PYTHONPATH={TOP / 'python'} exec {sys.executable} -m clearance"
        done = subprocess.run(["sh", "-c", f"{line} map {BRACKET} 2>&-"], stdout=subprocess.PIPE, check=False)
        self.assertEqual((done.returncode, done.stdout), (0, BRACKET.with_suffix(".map").read_bytes()))
        done = subprocess.run(["sh", "-c", f"{line} spot {BRACKET} 0 10000.01 2>&-"], stdout=subprocess.PIPE, check=False)
        self.assertEqual((done.returncode, done.stdout), (1, b""))

    def test_streams_that_are_closed(self):
        for words, streams in [("map - <&-", b"clearance: -: "), ("map %s >&-" % BRACKET, b"clearance: standard output: ")]:
            line = f'PYTHONPATH={TOP / "python"} exec {sys.executable} -m clearance {words}'
            done = subprocess.run(["sh", "-c", line], capture_output=True, check=False)
            self.assertEqual((done.returncode, done.stdout), (3, b""))
            self.assertTrue(done.stderr.startswith(streams), done.stderr)

    def test_a_name_that_is_no_text(self):
        with tempfile.TemporaryDirectory() as folder:
            name = os.path.join(folder, os.fsdecode(b"b\xff.sheet"))
            Path(name).write_bytes(BRACKET.read_bytes())
            status, out, said = command("map", "-o", folder, name)
            self.assertEqual((status, said), (0, ""))
            self.assertIn(b"b\xff.sheet: ", out)

    def test_a_closed_pipe(self):
        reading, writing = os.pipe()
        os.close(reading)
        done = process("map", BRACKET, stdout=writing)
        os.close(writing)
        self.assertEqual((done.returncode, done.stderr), (3, b""))

    def test_help(self):
        self.assertEqual(command("--version"), (0, b"clearance 1.1.0\n", ""))
        for verb in cli.VERBS:
            status, out, _ = command(verb, "--help")
            self.assertEqual(status, 0)
            self.assertIn(f"examples:\n  clearance {verb} ".encode(), out)


def library_joined(maps):
    from clearance.maps import joined

    return joined(maps).text()


class Writing(unittest.TestCase):
    """How every verb with -o writes: whole or not at all, through links, and into what is no plain file."""

    def test_whole_or_not_at_all(self):
        with tempfile.TemporaryDirectory() as folder:
            place = Path(folder) / "kept"
            place.write_bytes(b"old")
            console.write_bytes(str(place), b"new")
            self.assertEqual((place.read_bytes(), os.listdir(folder)), (b"new", ["kept"]))
            with self.assertRaises(console.Ended) as ended:
                console.write_bytes(str(Path(folder) / "none" / "there"), b"new")
            self.assertEqual(ended.exception.status, 3)

    def test_links_and_pipes_stay(self):
        with tempfile.TemporaryDirectory() as folder:
            place, link, pipe = (Path(folder) / name for name in ("place", "link", "pipe"))
            place.write_bytes(b"old")
            link.symlink_to(place)
            console.write_bytes(str(link), b"new")
            self.assertTrue(link.is_symlink())
            self.assertEqual(place.read_bytes(), b"new")
            os.mkfifo(pipe)
            reader = os.open(pipe, os.O_RDONLY | os.O_NONBLOCK)
            console.write_bytes(str(pipe), b"through")
            self.assertEqual(os.read(reader, 99), b"through")
            os.close(reader)
            self.assertTrue(pipe.is_fifo())
            with self.assertRaises(console.Ended):
                console.write_bytes(folder, b"new")


class Progress(unittest.TestCase):
    """The line that tells how far many sheets are: on a terminal alone, and from a second on."""

    def shown(self, terminal, seconds):
        said = io.StringIO()
        said.isatty = lambda: terminal
        with mock.patch("sys.stderr", said), mock.patch("time.monotonic", side_effect=[0.0, seconds, seconds]):
            progress = console.Progress(3)
            progress.step(2, "two.sheet")
            progress.end()
        return said.getvalue()

    def test_when_it_is_shown(self):
        self.assertIn("2 of 3: two.sheet", self.shown(True, 1.5))
        self.assertTrue(self.shown(True, 1.5).endswith("\r\x1b[K"))
        self.assertEqual(self.shown(True, 0.5), "")
        self.assertEqual(self.shown(False, 60.0), "")


class Spots(unittest.TestCase):
    def test_lines_and_data(self):
        status, out, _ = command("spot", BRACKET, "12.5", "30", "-5", "30")
        lines = b"12.5 30: 2.5000 to 2.5125 mm, edge 6 (line 12)\n-5 30: 5.0000 to 5.0317 mm, edge 10 (line 16)\n"
        self.assertEqual((status, out), (0, lines))
        told = json.loads(command("spot", "--json", BRACKET, "12.5", "30")[1])
        found = Job.from_sheet(BRACKET.read_bytes()).point("12.5", 30)
        self.assertEqual((told[0]["lo_squared_fine"], told[0]["hi_squared_fine"]), (found.lo_squared, found.hi_squared))

    def test_more_than_one_call_takes(self):
        words = [str(number) for number in range(600)]
        self.assertEqual(command("spot", BRACKET, *words)[1].count(b"\n"), 300)

    def test_statuses(self):
        for words in [["1"], ["1", "2", "3"], ["1.005", "2"], ["nan", "2"], ["x", "2"]]:
            self.assertEqual(command("spot", BRACKET, *words)[:2], (2, b""), words)
        status, out, said = command("spot", BRACKET, "0", "10000.01")
        self.assertEqual((status, out), (1, b""))
        self.assertIn("0 10000.01: refused 3 (range)", said)
        self.assertEqual(command("spot", "-", "0", "0", stdin=b"")[0], 1)
        self.assertEqual(command("spot", "/nowhere", "0", "0")[0], 3)


if __name__ == "__main__":
    unittest.main()
