"""A DXF file as ezdxf loads it, with what that loses or mends.

The file's own tags are walked beside it: they tell the line of an entity, and how many entities there are to be loaded.
"""

import contextlib
import io
import logging
import re
from collections import Counter
from dataclasses import dataclass, field

from .curves import Findings, Unusable
from .dxf_odd import Oddities

BINARY = b"AutoCAD Binary DXF\r\n\x1a\x00"
BYTE_ORDER_MARK = b"\xef\xbb\xbf"
# From this release on the text is UTF-8; before, the header names a code page.
UTF8_FROM = "AC1021"
# Entities that belong to the one before them.
LINKED = {"VERTEX", "ATTRIB", "SEQEND"}
# So many messages of ezdxf are told.
MESSAGES_MOST = 3
# What ezdxf logs and no geometry hangs on: classes, tables of names and styles, text without a handle, dimensions.
HARMLESS = re.compile(r"in section CLASSES|in [A-Z_]+ table|attached MTEXT|DIMENSION|dimension|GEODATA|MTEXT|text style")
# What it logs below a warning and geometry hangs on.
MENDED = "Fixed invalid attribute"


def looks_like(data):
    """Whether bytes begin as a DXF drawing does: the group code 0 and SECTION, behind blank lines and comments at most."""
    return data.startswith(BINARY) or beginning(data.removeprefix(BYTE_ORDER_MARK).splitlines()) is not None


def beginning(lines):
    """The first line of the first section, counted from 0; None where something else comes first."""
    at = 0
    while at + 1 < len(lines):
        code = lines[at].strip()
        if code and int_of(code) == 999:
            at += 2
        elif code:
            return at if int_of(code) == 0 and lines[at + 1].strip() in (b"SECTION", "SECTION") else None
        else:
            at += 1
    return None


def int_of(code):
    """A group code, or none where it is no whole number; Python's int takes more for one."""
    text = code.decode("latin-1") if isinstance(code, bytes) else code
    return int(text) if re.fullmatch(r"\s*-?[0-9]{1,5}\s*", text, re.ASCII) else None


@dataclass(frozen=True)
class Entity:
    """An entity of the sections ENTITIES and BLOCKS, as the tags have it: type, line, handle, and for a block its name."""

    name: str
    line: int
    pairs: dict = field(default_factory=dict)

    def handle(self):
        return self.pairs.get(5, "").upper()


@dataclass(frozen=True)
class Tags:
    """What the tags of a file tell: the sections' names in their order, and the entities."""

    sections: list
    entities: list


def decoded(data):
    """The lines of an ASCII file, in the encoding that its header tells. No two names become one: what is no letter is kept apart."""
    from ezdxf.tools.codepage import toencoding

    release = re.search(rb"\$ACADVER\s+1\s+(AC[0-9]+)", data)
    page = re.search(rb"\$DWGCODEPAGE\s+3\s+(\S+)", data)
    modern = release and release[1].decode() >= UTF8_FROM
    encoding = "utf-8" if modern else toencoding(page[1].decode("latin-1")) if page else "cp1252"
    text = data.removeprefix(BYTE_ORDER_MARK).decode(encoding, "surrogateescape")
    return text.replace("\r\n", "\n").replace("\r", "\n").split("\n")


def pairs_of(lines, start):
    """Line, group code and value, up to the end of the file's tags."""
    for at in range(start, len(lines) - 1, 2):
        code, value = int_of(lines[at]), lines[at + 1].strip()
        yield at + 1, code, value
        if (code, value) == (0, "EOF"):
            return


def walked(pairs):
    """The tags of a file by sections and entities, and the line of the last one."""
    tags, section, awaited, last = Tags([], []), None, False, 0
    for line, code, value in pairs:
        last = line
        if code == 0:
            section = None if value in ("SECTION", "ENDSEC") else section
            awaited = value == "SECTION"
            if section in ("ENTITIES", "BLOCKS"):
                tags.entities.append(Entity(value, line))
        elif code == 2 and awaited:
            section, awaited = value, False
            tags.sections.append(value)
        elif section in ("ENTITIES", "BLOCKS") and tags.entities and code in (2, 5):
            tags.entities[-1].pairs.setdefault(code, value)
    return tags, last


class Notices(logging.Handler):
    """What ezdxf logs: losses and mends, which are findings, and the harmless rest of its warnings."""

    def __init__(self):
        super().__init__(logging.DEBUG)
        self.lost, self.harmless = [], []

    def emit(self, record):
        message = " ".join(record.getMessage().split())[:200]
        warns = record.levelno >= logging.WARNING
        if message.startswith(MENDED) or warns and not HARMLESS.search(message):
            self.lost.append(message)
        elif warns:
            self.harmless.append(message)

    def remarks(self):
        return [f"ezdxf warns: {message}" for message in self.harmless[:MESSAGES_MOST]]


@contextlib.contextmanager
def quiet(handler):
    """Keeps what ezdxf prints and logs off the terminal."""
    logger = logging.getLogger("ezdxf")
    passed_on, logger.propagate = logger.propagate, False
    level = logger.level
    logger.setLevel(logging.DEBUG)
    logger.addHandler(handler)
    try:
        with contextlib.redirect_stdout(io.StringIO()), contextlib.redirect_stderr(io.StringIO()):
            yield
    finally:
        logger.removeHandler(handler)
        logger.setLevel(level)
        logger.propagate = passed_on


class File:
    """A drawing's document, the lines of its entities by their handles, and its tags."""

    def __init__(self, data):
        from ezdxf.lldxf.tagger import binary_tags_loader

        if data.startswith(BINARY):
            lines, start = [], 0
            pairs = ((0, tag.code, str(tag.value)) for tag in binary_tags_loader(data))
        else:
            lines = decoded(data)
            start = beginning(lines) or 0
            pairs = pairs_of(lines, start)
        try:
            pairs = list(pairs)
            self.tags, last = walked(pairs)
            self.odd = Oddities((line, code, value) for line, code, value in pairs if code is not None).found
            self.document = loaded(data, lines[start:])
        except Exception as error:  # ezdxf raises what comes: KeyError, TypeError, its own
            raise unreadable(data, error) from error
        self.behind = sum(bool(line.strip(" \t\x1a")) for line in lines[last + 1 :])
        self.lines = self.lines_by_handle()

    def all_entities(self):
        """The loaded entities of all spaces and of the file's blocks; ezdxf adds blocks of its own."""
        named = {entity.pairs.get(2, "").casefold() for entity in self.tags.entities if entity.name == "BLOCK"}
        for block in self.document.blocks:
            if block.name.casefold() in named or block.is_any_layout:
                yield from block

    def lines_by_handle(self):
        """The line of each entity. Where the file has no handles, ezdxf gives them in the order of the file."""
        written = [entity for entity in self.tags.entities if entity.name not in LINKED | {"BLOCK", "ENDBLK"}]
        if any(entity.handle() for entity in written):
            return {entity.handle(): entity.line for entity in written}
        given = sorted((int(entity.dxf.handle, 16), entity.dxftype()) for entity in self.all_entities())
        if [name for _, name in given] != [entity.name for entity in written]:
            return {}
        return {f"{handle:X}": entity.line for (handle, _), entity in zip(given, written)}

    def line(self, entity):
        """The line at which an entity stands in the file, or that which it is a copy of; 0 where that is not known."""
        while entity is not None:
            if entity.dxf.get("handle"):
                return self.lines.get(entity.dxf.handle.upper(), 0)
            entity = entity.source_of_copy
        return 0

    def remarks(self):
        """What there is to say of the file."""
        if self.behind:
            yield f"{self.behind} lines behind its end are not read"

    def losses(self):
        """What of the file ezdxf has not loaded, as messages."""
        for name, count in Counter(self.tags.sections).items():
            if count > 1 and name in ("ENTITIES", "BLOCKS", "HEADER"):
                yield f"the section {name} stands there {count} times, and one of them is read"
        blocks = Counter(entity.pairs.get(2, "").casefold() for entity in self.tags.entities if entity.name == "BLOCK")
        for name, count in blocks.items():
            if count > 1:
                yield f"the block {name!r} is defined {count} times"
        written = Counter(entity.name for entity in self.tags.entities if entity.name not in ("BLOCK", "ENDBLK", "SEQEND"))
        found = Counter()
        for entity in self.all_entities():
            found[entity.dxftype()] += 1
            found["VERTEX"] += len(getattr(entity, "vertices", ())) if entity.dxftype() == "POLYLINE" else 0
            found["ATTRIB"] += len(getattr(entity, "attribs", ()))
        for name, count in written.items():
            if found[name] < count:
                yield f"ezdxf loads {found[name]} of its {count} {name}"


def loaded(data, lines):
    if data.startswith(BINARY):
        from ezdxf.document import Drawing as Document
        from ezdxf.lldxf.tagger import binary_tags_loader

        return Document.load(binary_tags_loader(data))
    import ezdxf

    return ezdxf.read(io.StringIO("\n".join(lines)))


def told(error):
    """An exception in one line."""
    return " ".join(f"{type(error).__name__}: {error}".split())[:200]


def unreadable(data, error):
    """The findings of a file that ezdxf does not load: its reason, and what its recovery would have to mend."""
    first = Unusable(f"it is no DXF drawing that can be read: {told(error)}")
    try:
        from ezdxf import recover

        _, auditor = recover.read(io.BytesIO(data))
    except Exception:  # beyond recovery
        return first
    mends = [" ".join(entry.message.split())[:200] for entry in [*auditor.errors, *auditor.fixes]]
    return Findings([first, *(Unusable(f"it would have to be mended: {mend}") for mend in mends[:MESSAGES_MOST])])
