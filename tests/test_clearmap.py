"""The program itself, crates/clearmap/out/clearmap, held byte for byte to what is stored: at once, in pieces, and where reading or writing fails."""

import fcntl
import os
import struct
import subprocess
import termios
import time
import unittest
from pathlib import Path

TOP = Path(__file__).resolve().parent.parent
CLEARMAP = TOP / "crates/clearmap/out/clearmap"
# Where stored maps and stored sheets are.
MAPS, SHEETS = "differential/stored/maps", "differential/stored/sheets"
NOT_READ = b"clearmap: the input could not be read to its end\n"
NOT_WRITTEN = b"clearmap: the answer could not be written\n"
PATIENCE = 60


def stored(place):
    """Each case of a folder of stored sheets: its name, its sheet, and what the folder's stdout has for it."""
    folder = TOP / place
    names = (folder / "args").read_text().split()
    rest = (folder / "stdout").read_bytes()
    for name, after in zip(names, names[1:] + [None]):
        head = name.encode() + b"\n"
        assert rest.startswith(head), name
        end = len(rest) if after is None else rest.index(b"\n" + after.encode() + b"\n", len(head) - 1) + 1
        yield name, (folder / "data" / name).read_bytes(), rest[len(head) : end]
        rest = rest[end:]


def examples():
    for sheet in sorted((TOP / "examples").glob("*.sheet")):
        yield sheet.stem, sheet.read_bytes(), sheet.with_suffix(".map").read_bytes()


def run(sheet, words=(CLEARMAP,)):
    return subprocess.run(words, input=sheet, capture_output=True, timeout=PATIENCE, check=False)


def run_shell(line, sheet=b""):
    """Runs the program as $0 of a line of the shell."""
    return run(sheet, ("sh", "-c", line, CLEARMAP))


def taken(pipe):
    """Waits until everything written to a pipe was read."""
    until = time.monotonic() + PATIENCE
    while struct.unpack("i", fcntl.ioctl(pipe, termios.FIONREAD, b"\0" * 4))[0]:
        if time.monotonic() > until:
            raise TimeoutError
        time.sleep(0.0005)


def run_in_pieces(sheet, size):
    """Each piece is written when the one before was read, so each is a read of its own. Past 8,193 bytes the program asks for nothing."""
    front, rest = sheet[:8193], sheet[8193:]
    with subprocess.Popen(CLEARMAP, stdin=subprocess.PIPE, stdout=subprocess.PIPE, stderr=subprocess.PIPE, bufsize=0) as process:
        for at in range(0, len(front), size):
            process.stdin.write(front[at : at + size])
            taken(process.stdin)
            time.sleep(0.001)
        out, err = process.communicate(rest, timeout=PATIENCE)
        return subprocess.CompletedProcess(CLEARMAP, process.returncode, out, err)


class Program(unittest.TestCase):
    def holds(self, done, answer, said=b""):
        self.assertEqual((done.stdout, done.stderr), (answer, said))

    def both_ways(self, name, sheet, answer):
        with self.subTest(name, way="at once"):
            self.holds(run(sheet), answer)
        with self.subTest(name, way="in pieces"):
            self.holds(run_in_pieces(sheet, max(7, len(sheet) // 5)), answer)

    def test_examples(self):
        for name, sheet, answer in examples():
            self.both_ways(name, sheet, answer)

    def test_stored_maps(self):
        """The sheets of the other programs' cases are among these."""
        sheets = {}
        for name, sheet, answer in stored(MAPS):
            self.both_ways(name, sheet, answer)
            sheets[name] = sheet
        for place in "crates/point_cases", "crates/drawing_cases":
            for name, sheet, _ in stored(place):
                self.assertEqual(sheet, sheets[name])

    def test_stored_sheets(self):
        """A sheet that is refused gets its refusal, any other the answer to the sheet that is written of its job."""
        lengths = set()
        for name, sheet, written in stored(SHEETS):
            lengths.add(len(sheet))
            answer = written if written.startswith(b"(refused ") else run(written).stdout
            self.both_ways(name, sheet, answer)
        self.assertLessEqual({8192, 8193}, lengths)

    def test_byte_by_byte(self):
        _, sheet, answer = next(case for case in examples() if case[0] == "sample")
        self.holds(run_in_pieces(sheet, 1), answer)

    def test_far_too_long(self):
        self.holds(run(b"(job\n" * 100_000), b"(refused 1)\n")

    def test_directory(self):
        self.holds(run_shell('exec "$0" < /'), b"", NOT_READ)

    def test_closed_input(self):
        self.holds(run_shell('exec "$0" <&-'), b"", NOT_READ)

    def test_late_input(self):
        """An input that does not block and is late, with nothing or with a sheet but for its end in it."""
        _, sheet, _ = next(examples())
        for there in b"", sheet[:-2]:
            with self.subTest(there=len(there)):
                reading, writing = os.pipe()
                os.set_blocking(reading, False)
                os.write(writing, there)
                done = subprocess.run(CLEARMAP, stdin=reading, capture_output=True, timeout=PATIENCE, check=False)
                os.close(reading)
                os.close(writing)
                self.holds(done, b"", NOT_READ)

    def test_full_device(self):
        for _, sheet, _ in examples():
            self.holds(run_shell('exec "$0" > /dev/full', sheet), b"", NOT_WRITTEN)

    def test_closed_output(self):
        _, sheet, _ = next(examples())
        self.holds(run_shell('exec "$0" >&-', sheet), b"", NOT_WRITTEN)

    def test_small_stack(self):
        for name, sheet, answer in examples():
            with self.subTest(name):
                self.holds(run_shell('ulimit -s 256; exec "$0"', sheet), answer)


if __name__ == "__main__":
    unittest.main()
