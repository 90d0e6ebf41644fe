"""Clearance maps that are proved: the library from Python. Every verdict and every bound comes from the proved code."""

from importlib import import_module

from .version import VERSION as __version__

TYPE_CHECKING = False
if TYPE_CHECKING:  # for those who read types: below, each is imported when it is used, so that the command starts quickly
    from .job import Drawn, Job
    from .library import LibraryMissing
    from .maps import Map, joined
    from .nearest import Nearest
    from .parts import BadPart, Part
    from .refusals import Refused

__all__ = ["BadPart", "Drawn", "Job", "LibraryMissing", "Map", "Nearest", "Part", "Refused", "joined", "__version__"]

_FILES = {
    "BadPart": "parts",
    "Drawn": "job",
    "Job": "job",
    "LibraryMissing": "library",
    "Map": "maps",
    "Nearest": "nearest",
    "Part": "parts",
    "Refused": "refusals",
    "joined": "maps",
}


def __getattr__(name):
    if name not in _FILES:
        raise AttributeError(f"module {__name__!r} has no attribute {name!r}")
    found = globals()[name] = getattr(import_module(f".{_FILES[name]}", __name__), name)
    return found


def __dir__():
    return sorted({*globals(), *__all__})
