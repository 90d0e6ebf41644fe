"""What a DXF drawing draws and a sheet cannot: its kinds, as --leave-out has them, and one finding a type of entity."""

from dataclasses import dataclass

TYPES = {
    "text": ("TEXT", "MTEXT", "ATTRIB", "ATTDEF", "RTEXT", "ARCALIGNEDTEXT"),
    "dimension": ("DIMENSION", "ARC_DIMENSION", "LARGE_RADIAL_DIMENSION", "LEADER", "MULTILEADER", "MLEADER", "TOLERANCE"),
    "hatch": ("HATCH", "MPOLYGON"),
    "solid": ("SOLID", "TRACE"),
    "face": ("3DFACE", "MESH", "polyface", "polymesh"),
    "body": (
        *("3DSOLID", "REGION", "BODY", "SURFACE", "PLANESURFACE", "EXTRUDEDSURFACE"),
        *("LOFTEDSURFACE", "NURBSURFACE", "REVOLVEDSURFACE", "SWEPTSURFACE"),
    ),
    "mline": ("MLINE",),
    "image": ("IMAGE", "WIPEOUT", "PDFUNDERLAY", "DWFUNDERLAY", "DGNUNDERLAY", "OLEFRAME", "OLE2FRAME"),
    "ray": ("RAY", "XLINE"),
    "table": ("ACAD_TABLE",),
    "proxy": ("ACAD_PROXY_ENTITY",),
    "viewport": ("VIEWPORT",),
    "point": ("POINT",),
}
KIND_OF = {name: kind for kind, names in TYPES.items() for name in names}
# Words for --leave-out, with what each stands for.
KINDS = {
    **{kind: ", ".join(names) for kind, names in TYPES.items()},
    "xref": "INSERT of another file",
    "paper": "all that stands in paper space",
    "other": "any other type",
}


REFERENCE = "INSERT of the external reference"


def kind_of(name):
    return "xref" if name.startswith(REFERENCE) else KIND_OF.get(name, "other")


@dataclass
class Group:
    """Entities of one type that make no edge: how many, and the first in words with its place."""

    count: int
    first: str
    place: tuple


class Groups:
    """Entities that make no edge, by kind and type in the order in which they were met."""

    def __init__(self):
        self.found = {}

    def add(self, name, first, place, count=1):
        """`name` is an entity's type; `first` names the entity."""
        group = self.found.setdefault((kind_of(name), name), Group(0, first, place))
        group.count += count

    def settle(self, undrawn):
        """Hands the groups on. A point has no length: it is counted, and no finding."""
        for (kind, name), group in self.found.items():
            if kind == "point":
                undrawn.counts[kind] += group.count
                continue
            what = f"{group.count} {name} {'makes' if group.count == 1 else 'make'} no edge, the first is {group.first}"
            way = "bind" if kind == "xref" else "explode or convert"
            undrawn.add(kind, f"{what}: {way} it in the CAD program", group.place, group.count)
