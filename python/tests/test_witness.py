"""Tests of `from` against an independent witness: random drawings with known places, and what rsvg-convert and GDAL make of them.

tools/try-drawings runs many more of them, and all drawings below a folder.
"""

import tempfile
import unittest
from collections import Counter
from pathlib import Path

from .test_from import DRAWINGS, HAS
from .witness import dxf_drawn, random_dxf, random_svg, svg_drawn, trial
from .witness.plane import all_moved, box_of, size_of
from .witness.sheets import outline_lines

needs_svg = unittest.skipUnless(
    HAS["svgelements"] and svg_drawn.is_there(),
    "svgelements or rsvg-convert (Debian: python3-svgelements, librsvg2-bin) is missing: no SVG drawing was compared",
)
needs_dxf = unittest.skipUnless(
    HAS["ezdxf"] and dxf_drawn.is_there(), "ezdxf or ogr2ogr (Debian: python3-ezdxf, gdal-bin) is missing: no DXF drawing was compared"
)


class Random(unittest.TestCase):
    def agree(self, make, count, least, suffix):
        """That no sheet of random drawings has an edge elsewhere or lacks one, and that so many are accepted at least."""
        counts = Counter()
        with tempfile.TemporaryDirectory() as folder:
            for seed in range(count):
                drawing, path = make(seed), Path(folder) / f"seed-{seed}.{suffix}"
                path.write_bytes(drawing.data)
                result = trial.tried(path, drawing.words, drawing.lines, not drawing.known_only)
                counts[result.kind] += 1
                with self.subTest(seed=seed):
                    self.assertIn(result.kind, ("agreeing", "refused"), result.words)
        self.assertGreaterEqual(counts["agreeing"], least, counts)

    @needs_svg
    def test_svg(self):
        self.agree(random_svg.make, 40, 15, "svg")

    @needs_dxf
    def test_dxf(self):
        self.agree(random_dxf.make, 20, 12, "dxf")


class KnownPlaces(unittest.TestCase):
    """The known places themselves against the other program, without `from`."""

    @needs_svg
    def test_svg(self):
        for seed in range(1000, 1030):
            drawing = random_svg.make(seed)
            if drawing.lines and not drawing.known_only:
                with self.subTest(seed=seed):
                    there = svg_drawn.drawn(drawing.data, box_of(drawing.lines), drawing.unit)
                    self.assertIsNone(trial.differing(drawing.lines, there, 0.0, svg_drawn.SLACK + trial.KNOWN_SLACK))


class Faults(unittest.TestCase):
    """Faults that are planted in an outline: the comparison must see each."""

    def seen(self, path):
        found = trial.outline_of(path)
        self.assertIsInstance(found, tuple, found)
        edges, off = found
        outline = outline_lines(edges)
        there, slack, part = trial.witness(path, outline, ())
        self.assertIsNone(trial.differing(outline, there, off + slack, part))
        size = size_of(outline)
        for words, wrong in self.wrong(edges, size):
            with self.subTest(words, drawing=path.name):
                found = trial.differing(outline_lines(wrong), there, off + slack, part)
                self.assertIsNotNone(found)
                self.assertGreater(found[1], 0.001 * size)

    @staticmethod
    def wrong(edges, size):
        """Outlines with one fault each. Three pixels are meant of a picture a thousand pixels across."""
        yield "moved by three pixels", all_moved((1, 0, 0, 1, 0.003 * size, 0), edges)
        yield "a hundredth too large", all_moved((1.01, 0, 0, 1.01, 0, 0), edges)
        yield "mirrored", all_moved((-1, 0, 0, 1, 0, 0), edges)
        for index in (0, len(edges) // 2, len(edges) - 1):
            yield f"edge {index} lacking", edges[:index] + edges[index + 1 :]
            yield f"edge {index} elsewhere", [*edges[:index], *all_moved((1, 0, 0, 1, 0, 0.01 * size), [edges[index]]), *edges[index + 1 :]]
            yield f"edge {index} twice", [*edges, *all_moved((1, 0, 0, 1, 0.01 * size, 0.01 * size), [edges[index]])]

    @needs_svg
    def test_svg(self):
        self.seen(DRAWINGS / "flange.svg")

    @needs_dxf
    def test_dxf(self):
        self.seen(DRAWINGS / "bracket.dxf")
