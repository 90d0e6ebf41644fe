"""What the library says of an outline's trees of strips: how many nodes they have, and which grains it accepts them with.

The plate and the reach have no say in the trees (RULES, "Trees"), so they are asked for with a plate of one cell, which costs least.
"""

from . import library
from .job import Job
from .refusals import Refused
from .sheets import GRAINS

LONG, STORE = 5, 6


def nodes(edges, grain, store=library.STORE_MOST):
    """How many nodes the trees have. Refuses with 2, 3 and 5, and with 6 where they need more numbers than the store has."""
    return Job(0, 0, 0, 0, 1, edges, grain).map(store).nodes


def refusal(edges, grain, store=library.STORE_MOST):
    """0, or what the library refuses the trees with: 5 or 6. Refuses with 2 and 3."""
    try:
        nodes(edges, grain, store)
    except Refused as refused:
        if refused.number not in (LONG, STORE):
            raise
        return refused.number
    return 0


def least_grain(edges, store=library.PROGRAM_STORE, lowest=GRAINS[0]):
    """The smallest grain, from `lowest` on, that the library accepts the trees with, or none. Refuses with 2 and 3.

    It is found by halving, since a grain above an accepted one is accepted too. A piece of an edge is short if its strip's
    size, in which the grain has no say, is at most 16 grains (RULES, "Strips"): what is short stays so with a larger grain.
    The trees have the pieces that come of no short one, so a larger grain adds none of them: there are no more nodes, and
    a piece of depth 10 that is not short was there, and not short, with the smaller grain.
    """
    highest = GRAINS[1]
    if lowest > highest or refusal(edges, highest, store):
        return None
    while lowest < highest:
        middle = (lowest + highest) // 2
        if refusal(edges, middle, store):
            lowest = middle + 1
        else:
            highest = middle
    return highest
