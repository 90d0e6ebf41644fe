"""What the tags of a DXF file have that ezdxf passes over, or that programs read in different ways: each is a finding."""

import re
from collections import Counter
from dataclasses import dataclass, field

SECTIONS = {"HEADER", "CLASSES", "TABLES", "BLOCKS", "ENTITIES", "OBJECTS"}
DRAWN = ("ENTITIES", "BLOCKS")
# The group codes of numbers, up to 369.
NUMBERS = {*range(10, 80), *range(90, 100), *range(110, 180), *range(210, 240), *range(270, 290)}
# Python takes these for parts of a number.
ODD_DIGITS = re.compile(r"_|[^\x00-\x7f]")
# Of entities that ezdxf reads from one part of their tags alone: that part, the group codes it has to have, and which of them say
# how many there are of another.
PARTED = {
    "LWPOLYLINE": ("AcDbPolyline", {10, 20, 38, 39, 42, 43, 70, 90, 210, 220, 230}, {90: 10}),
    "SPLINE": ("AcDbSpline", {10, 20, 11, 40, 41, 70, 71, 72, 73, 74}, {72: 40, 73: 10, 74: 11}),
}
EXTENDED = 1000


@dataclass
class Parted:
    """An entity of PARTED: its line, its codes by the part they stand in, and the counts that it states."""

    name: str
    line: int
    part: str = ""
    parts: set = field(default_factory=set)
    codes: list = field(default_factory=list)
    stated: dict = field(default_factory=dict)

    def meet(self, code, value):
        if code == 100 or code >= EXTENDED:
            self.part = value if code == 100 else "extended data"
            self.parts.add(self.part)
        elif code in PARTED[self.name][1]:
            self.codes.append((code, self.part))
            if code in PARTED[self.name][2]:
                self.stated[code] = value

    def oddities(self):
        own, _, counted = PARTED[self.name]
        codes = [code for code, _ in self.codes]
        outside = sorted({code for code, part in self.codes if part != own})
        if outside and (own in self.parts or "extended data" in self.parts):
            yield f"its group {outside[0]} stands outside of {own}, where not all programs read it"
        if self.name == "LWPOLYLINE" and 42 in codes and 10 not in codes[: codes.index(42)]:
            yield "its first bulge stands before its first corner"
        for code, of in counted.items():
            if code in self.stated and self.stated[code] != str(codes.count(of)):
                yield f"it says {self.stated[code]} of group {of}, and has {codes.count(of)}"


class Oddities:
    """Goes through the tags, each a line, a code and a value; `found` has messages with their lines."""

    def __init__(self, pairs):
        self.found, self.section, self.awaited, self.entity = [], None, False, None
        self.headers, self.units, self.strays = Counter(), 0, 0
        for line, code, value in pairs:
            self.pair(line, code, value)
        if self.strays > 1:
            self.found.append((f"so do {self.strays - 1} entities more", 0))
        if self.headers["HEADER"] > 1 or self.units > 1:
            self.found.append(("its header states $INSUNITS more than once, or there are two headers", 0))

    def say(self, message, line):
        self.found.append((message, line))

    def pair(self, line, code, value):
        if code == 0:
            self.begin(line, value)
        elif code == 2 and self.awaited:
            self.name(line, value)
        elif code == 9 and self.section == "HEADER":
            self.units += value == "$INSUNITS"
        if code in NUMBERS and self.section in ("HEADER", *DRAWN) and ODD_DIGITS.search(value):
            self.say(f"group {code} has {value[:40]!r}, which is no number", line)
        if self.entity and code:
            self.entity.meet(code, value)

    def begin(self, line, value):
        """A tag of code 0 begins a section or an entity, or ends one."""
        if self.entity:
            for message in self.entity.oddities():
                self.say(f"{self.entity.name}: {message}", self.entity.line)
        self.entity = Parted(value, line) if self.section in DRAWN and value in PARTED else None
        if self.section is None and value not in ("SECTION", "ENDSEC", "EOF"):
            self.strays += 1
            if self.strays == 1:
                self.say(f"{value} stands outside of all sections", line)
        self.section = None if value in ("SECTION", "ENDSEC") else self.section
        self.awaited = value == "SECTION"

    def name(self, line, value):
        self.section, self.awaited = value, False
        self.headers[value] += 1
        if value not in SECTIONS and value.upper() in SECTIONS:
            self.say(f"the section {value[:40]!r} is not read: its name has to be in capitals", line)
