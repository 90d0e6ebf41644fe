"""Bounds on a point's distance from the outline."""

from dataclasses import dataclass

from .lengths import root_down, root_up


@dataclass(frozen=True)
class Nearest:
    """What the library answers for one point: the two bounds squared, in fine units, and the first edge that gives the upper one.

    Of a part `sheet` tells which of its jobs has that edge.
    """

    lo_squared: int
    hi_squared: int
    edge: int
    sheet: int = 0

    @property
    def lo(self):
        """No point of the outline is nearer than this; millimetres, rounded down."""
        return root_down(self.lo_squared)

    @property
    def hi(self):
        """Some point of the outline is within this; millimetres, rounded up."""
        return root_up(self.hi_squared)
