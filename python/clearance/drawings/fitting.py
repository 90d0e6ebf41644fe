"""Lines and cubics for the curves of a drawing."""

from .arc_fitting import arc_pieces
from .curves import Arc, Bezier
from .pieces import BezierPiece, elevated
from .spline_fitting import spline_pieces


def pieces(curve, within):
    """The pieces of a curve, in its order; each stays within so much of it before it is rounded."""
    if isinstance(curve, Bezier):
        return [BezierPiece(elevated(curve.points), curve.doubt)]
    if isinstance(curve, Arc):
        return arc_pieces(curve, within)
    return spline_pieces(curve, within)
