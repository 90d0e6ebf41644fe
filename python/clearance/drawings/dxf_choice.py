"""What of a DXF drawing is taken: its layout, and the layers of that."""

import re
from collections import Counter

from .curves import Unusable

MODEL = "Model"
# So many names are listed in a message.
NAMES_MOST = 12


def shown(name):
    """A name with the letters that it writes by their numbers."""
    return re.sub(r"\\U\+([0-9A-Fa-f]{4})", lambda found: chr(int(found[1], 16)), name)


def same(name):
    """Names of layers and layouts are compared without case."""
    return shown(name).casefold()


def listed(names):
    names = list(names)
    more = f" and {len(names) - NAMES_MOST} more" if len(names) > NAMES_MOST else ""
    return ", ".join(map(repr, names[:NAMES_MOST])) + more


def spaces(document):
    """The entities of each layout by its name, the model space first. A paper space that no layout names goes by its block's name."""
    found, known = {}, set()
    for name in document.layouts.names_in_taborder():
        layout = document.layouts.get(name)
        known.add(layout.block_record_name.casefold())
        found[name] = list(layout)
    for block in document.blocks:
        if block.name.casefold().startswith("*paper_space") and block.name.casefold() not in known:
            found[block.name] = list(block)
    return found


class Layers:
    """Which layers are taken, and how many entities each has."""

    def __init__(self, wish, document):
        self.wanted = {same(name): name for name in wish.layers}
        self.unwanted = {same(name): name for name in wish.not_layers}
        self.frozen = {same(layer.dxf.name) for layer in document.layers if layer.is_frozen()}
        self.hidden = self.frozen | {same(layer.dxf.name) for layer in document.layers if layer.is_off()}
        self.taken, self.passed = Counter(), Counter()
        self.names = {}

    def takes(self, name):
        key = same(name)
        return key not in self.unwanted and (not self.wanted or key in self.wanted)

    def meet(self, name):
        """Counts an entity on a layer, and says whether it is taken."""
        first = self.names.setdefault(same(name), name)
        taken = self.takes(name)
        (self.taken if taken else self.passed)[first] += 1
        return taken

    def settle(self, undrawn):
        """A name that was asked for and that no entity has is a finding."""
        for option, asked in (("--layer", self.wanted), ("--not-layer", self.unwanted)):
            for key, name in asked.items():
                if key not in self.names:
                    there = f"the layers are {listed(sorted(self.names.values()))}" if self.names else "there is nothing to read"
                    undrawn.refuse(f"{option} {name!r}: nothing that is read is on that layer; {there}")

    def facts(self):
        """What was chosen, where something was."""
        if not self.wanted and not self.unwanted:
            return {}
        return {"layers": {"taken": dict(sorted(self.taken.items())), "not_taken": dict(sorted(self.passed.items()))}}


def is_drawn(name, entity, layers):
    """Whether a layout draws an entity, on a layer that is taken. Viewports show the model space; an insert may have any layers."""
    kind = entity.dxftype()
    return (name == MODEL or kind != "VIEWPORT") and (kind == "INSERT" or layers.takes(entity.dxf.get("layer", "0")))


def chosen(document, wish, layers, undrawn):
    """The name and the entities of the layout that is taken, and what there is to say of the choice.

    What stands in paper space is a finding, unless a layout is asked for.
    """
    found = spaces(document)
    wanted = [name for name in found if same(name) == same(wish.layout or MODEL)]
    if not wanted:
        raise Unusable(f"--layout {wish.layout!r}: there is no such layout; the layouts are {listed(found)}")
    name = wanted[0]
    others = {}
    for other, entities in found.items():
        drawn = [each for each in entities if is_drawn(other, each, layers)]
        if other != name and drawn:
            others[other] = drawn
    if wish.layout is None:
        for other, drawn in others.items():
            types = ", ".join(sorted({each.dxftype() for each in drawn}))
            there = f"the layout {other!r} of paper space has {len(drawn)} of them ({types}); --layout {other!r} takes it alone"
            undrawn.add("paper", f"not all entities are in the model space: {there}", count=len(drawn))
        return name, found[name], {}
    not_taken = {other: len(drawn) for other, drawn in others.items()}
    return name, found[name], {"layout": {"taken": {name: len(found[name])}, "not_taken": not_taken}}
