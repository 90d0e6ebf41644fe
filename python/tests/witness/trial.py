"""One drawing tried: `clearance from` in this process, and the outline of its sheets against what is drawn."""

import io
import json
import re
import signal
import tempfile
import time
from contextlib import contextmanager, redirect_stderr, redirect_stdout
from dataclasses import dataclass
from pathlib import Path

from clearance import cli

from . import dxf_drawn, svg_drawn
from .plane import FLAT, box_of, farthest, size_of
from .sheets import edges_of, outline_lines
from .svg_drawn import CannotTell

SECONDS_MOST = 60
# A drawing's curves are known here by chords that are this part of its size off.
KNOWN_SLACK = 1e-4
UNITS = {"mm": 1.0, "cm": 10.0, "m": 1000.0, "in": 25.4, "ft": 304.8, "px": 25.4 / 96, "pt": 25.4 / 72, "pc": 25.4 / 6}


class TooSlow(BaseException):
    """No Exception: the command must not take it for a fault of the drawing."""


@dataclass
class Result:
    """What came of a drawing: agreeing, refused, differing, crashed, slow or untold, and words; how far it differs, in
    millimetres, seconds of the command, and options that it was given because it was refused without."""

    kind: str
    words: str = ""
    distance: float = 0.0
    seconds: float = 0.0
    given: tuple = ()


@contextmanager
def limited(seconds):
    def end(_signal, _frame):
        raise TooSlow

    before = signal.signal(signal.SIGALRM, end)
    signal.alarm(seconds)
    try:
        yield
    finally:
        signal.alarm(0)
        signal.signal(signal.SIGALRM, before)


def command(path, folder, words):
    """The verb `from`: its status, what it said, and the facts."""
    errors, output = io.StringIO(), io.TextIOWrapper(io.BytesIO(), encoding="utf-8")
    line = ["from", str(path), "--reach", "1", "--split", "-o", str(folder / "part.sheet"), "--json", *words]
    with redirect_stdout(output), redirect_stderr(errors):
        try:
            status = cli.main(line)
        except SystemExit as ended:
            status = ended.code
        output.flush()
    return status, errors.getvalue(), output.buffer.getvalue()


def outline_of(path, words=()):
    """The edges of the sheets that `from` writes of a drawing, and W in millimetres; or the result where it writes none."""
    with tempfile.TemporaryDirectory() as name:
        folder = Path(name)
        try:
            with limited(SECONDS_MOST):
                status, said, facts = command(path, folder, words)
        except TooSlow:
            return Result("slow")
        except Exception as error:  # the very thing that is looked for
            return Result("crashed", f"{type(error).__name__}: {error}")
        files = sorted(folder.glob("*.sheet"))
        if status != 0:
            kind = "crashed" if files or status not in (1, 2, 3) or "Traceback" in said else "refused"
            return Result(kind, said.strip().replace(f"clearance: {path}", ""))
        return edges_of(file.read_bytes() for file in files), float(json.loads(facts)["w"])


def tried(path, words=(), known=None, ask=True):
    """The result of a drawing. `known` are polylines that it must have; `ask` tells whether the other program is asked."""
    begin = time.process_time()
    found = outline_of(path, words)
    seconds = time.process_time() - begin
    result = found if isinstance(found, Result) else compared(path, *found, words, known, ask)
    result.seconds = seconds
    return result


def compared(path, edges, off, words=(), known=None, ask=True):
    """The outline against the known polylines, and against the other program's."""
    outline = outline_lines(edges)
    if known is not None:
        found = differing(outline, known, off, KNOWN_SLACK)
        if found:
            return Result("differing", f"from the known places: {found[0]}", found[1])
    if not ask:
        return Result("agreeing")
    try:
        there, slack, part = witness(path, outline, words)
    except CannotTell as error:
        return Result("untold", str(error))
    found = differing(outline, there, off + slack, part)
    if found is None:
        return Result("agreeing")
    return Result("differing", shifted(outline, there, off + slack, part) or found[0], found[1])


def witness(path, outline, words):
    """The polylines of the other program, how far they may be off in millimetres, and that as a part of their size."""
    data = Path(path).read_bytes()
    unit = UNITS[words[words.index("--units") + 1]] if "--units" in words else None
    if data.lstrip(b"\xef\xbb\xbf\xff\xfe \t\r\n\x00").startswith(b"<"):
        left_out = words[words.index("--leave-out") + 1].split(",") if "--leave-out" in words else ()
        return svg_drawn.drawn(data, box_of(outline) or (0.0, 0.0, 1.0, 1.0), unit, left_out), 0.0, svg_drawn.SLACK
    # Where nothing was asked to be left out, the outline must have all that is drawn.
    lines, slack = dxf_drawn.drawn(path, unit if unit is not None else dxf_drawn.unit_of(data), "--leave-out" not in words)
    return lines, slack, dxf_drawn.SLACK


def differing(outline, others, off, part):
    """Nothing, or words and a distance: points of one set that are farther from the other than W, and the other's own doubt, allow."""
    size = max(size_of(outline), size_of(others))
    near = off + (part + 2 * FLAT) * size + 1e-6
    # Nothing is drawn of an edge that is a point; but what is drawn may round to one.
    long = [line for line in outline if len(set(line)) > 1]
    for words, lines, there in (("the outline has", long, others), ("the outline lacks", others, outline)):
        found = farthest(lines, there, size, near) if lines else None
        if found:
            distance, (x, y) = found
            return f"{words} a point at ({x:.4f}, {y:.4f}) mm, {distance:.4f} mm from the other; {near:.4f} mm is allowed", distance
    return None


def shifted(outline, others, off, part):
    """Words where the outline agrees but for its place."""
    boxes = box_of(outline), box_of(others)
    if None in boxes:
        return None
    dx, dy = (b - a for a, b in zip(boxes[0][:2], boxes[1][:2]))
    if differing([[(x + dx, y + dy) for x, y in line] for line in outline], others, 2 * off, 2 * part):
        return None
    return f"the same, but moved as a whole by ({-dx:.4f}, {-dy:.4f}) mm"


NUMBERS = re.compile(r"\(?[-+]?\d[\d,.]*(?:e[-+]?\d+)?\)?", re.IGNORECASE)
NAMES = re.compile(r"'[^']*'|#[0-9A-Fa-f]+\b|\([A-Z]+\(#?[0-9A-Fa-f]*\)\)|(?<=<)\w+(?: id=\"[^\"]*\")?(?=>:)")


def kind_of(words):
    """The kind of a refusal: the words of its first finding without places, numbers and names."""
    first = words.splitlines()[0] if words else ""
    return NUMBERS.sub("N", NAMES.sub("…", first)).lstrip(":N ").strip()[:110]
