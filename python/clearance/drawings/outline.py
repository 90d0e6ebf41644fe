"""An outline of whole hundredths of a millimetre from the curves of a drawing, with what is to be said about it.

Rounding moves each control point to the nearest whole one. How far the outline and the drawing are apart then is the
largest of the bounds of its pieces, W: every point of the drawing is within W of the outline and every point of the outline
within W of the drawing. So a cell that keeps the reach R + W from the outline keeps R from the drawing: were a point of the
drawing closer than R, then a point of the outline, within W of that one, would be closer than R + W.
"""

import math
from dataclasses import dataclass, replace
from fractions import Fraction

from ..bounds import outline_box
from .curves import Unusable, rounded, taken
from .fitting import pieces
from .pieces import PIECES_MOST, BezierPiece

COORDINATE_MOST = 1_000_000
REACH_MOST = 1_000_000
PLATE_MOST = 1 << 20


@dataclass(frozen=True)
class Outline:
    """Edges as a job has them, the bound W in hundredths, and how many lines were joined and edges without length left out."""

    edges: tuple
    off: Fraction
    joined: int
    dropped: int

    def lines(self):
        return sum(len(edge) == 4 for edge in self.edges)


def outline_of(curves, within):
    """The outline of a drawing's curves, whose cubics stay within so many hundredths of them before they are rounded."""
    parts = []
    for curve in curves:
        try:
            parts += pieces(curve, within)
        except (ArithmeticError, IndexError) as error:
            raise Unusable("a curve in it has numbers too far apart to be followed") from error
        if len(parts) > PIECES_MOST:
            raise Unusable(f"it has more than {PIECES_MOST:,} edges")
    long = [piece for piece in parts if any(point != piece.control[0] for point in piece.control)]
    if not long:
        raise Unusable("there is nothing in it that makes an edge")
    straight = joined(long)
    edges, off, points = rounded_pieces(straight)
    dropped = len(parts) - len(long) + points
    return Outline(tuple(edges), off, len(long) - len(straight), dropped)


def placed(outline, corner=None):
    """The outline with the lower left corner of its box at a place, or where it is; Unusable where that is out of range.

    It is moved by whole hundredths, and the drawing with it: W stays.
    """
    edges = outline.edges
    if corner is not None:
        across, up = (to - at for to, at in zip(corner, outline_box(edges)))
        edges = tuple(tuple(number + (up if place % 2 else across) for place, number in enumerate(edge)) for edge in edges)
    far = max(abs(number) for edge in edges for number in edge)
    if far > COORDINATE_MOST:
        most = f"{COORDINATE_MOST // 100:,} mm at most can be written"
        raise Unusable(f"it goes {far / 100:,.2f} mm from the origin, and {most}{way_out(outline_box(edges), corner)}")
    return replace(outline, edges=edges)


def way_out(box, corner):
    """What helps an outline that goes too far: moving it, where a plate can hold it."""
    width, height = box[2] - box[0], box[3] - box[1]
    if max(width, height) > PLATE_MOST:
        return f"; it is {width / 100:,.2f} by {height / 100:,.2f} mm, and the largest plate {PLATE_MOST / 100:,.2f} mm wide"
    return "; --at moves it" if corner is None else "; --at puts it there"


def joined(parts):
    """The pieces with lines made one that go on exactly straight, also across the point where a closed run of pieces begins."""
    found, begin = [], 0
    for piece in parts:
        if found and not meet(found[-1], piece):
            close_run(found, begin)
            begin = len(found)
        if len(found) > begin and goes_on(found[-1], piece):
            piece = one_line(found.pop(), piece)
        found.append(piece)
    close_run(found, begin)
    return found


def close_run(found, begin):
    """Joins the last line of a closed run to its first."""
    if len(found) - begin > 2 and goes_on(found[-1], found[begin]):
        found[begin] = one_line(found.pop(), found[begin])


def one_line(before, after):
    """Two lines that go on straight as one. Each part of it is as far from the drawing as it was."""
    return BezierPiece((before.control[0], after.control[-1]), max(before.doubt, after.doubt))


def meet(before, after):
    """Whether a piece begins where the one before it ends."""
    return all(taken(a) == taken(b) for a, b in zip(before.control[-1], after.control[0]))


def goes_on(before, after):
    """Whether a line goes on in another with the same direction, exactly."""
    if not all(isinstance(piece, BezierPiece) and len(piece.control) == 2 for piece in (before, after)):
        return False
    (ax, ay), (bx, by) = before.control
    (cx, cy), (dx, dy) = after.control
    if (bx, by) != (cx, cy):
        return False
    ux, uy, vx, vy = bx - ax, by - ay, dx - cx, dy - cy
    return ux * vy == uy * vx and ux * vx + uy * vy > 0


def rounded_pieces(parts):
    """The edges of pieces, the largest bound, and how many were left out: those that round to an end of another edge.

    Such a one is the point itself, so its bound holds against that end.
    """
    edges = [tuple(rounded(point) for point in piece.control) for piece in parts]
    off = max(piece.bound(edge) for piece, edge in zip(parts, edges))
    ends = {end for edge in edges if len(set(edge)) > 1 for end in (edge[0], edge[-1])}
    kept = [edge for edge in edges if len(set(edge)) > 1 or edge[0] not in ends]
    return [tuple(number for point in edge for number in point) for edge in kept], off, len(edges) - len(kept)


def reach_for(reach, off):
    """The whole hundredths that keep a reach, in hundredths, from a drawing when they are kept from its outline."""
    found = math.ceil(reach) + math.ceil(off)
    if found > REACH_MOST:
        raise Unusable(f"its reach is {found / 100:,.2f} mm, and {REACH_MOST // 100:,} mm at most can be written")
    return found
