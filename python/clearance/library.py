"""The proved library, libclearance.so, as `include/clearance.h` declares it. Nothing here computes: it lends memory and calls.

The library is looked for, in this order: the file that the environment variable CLEARANCE_LIBRARY names; beside this
file, where an installed package has it; in `build/prefix/lib` of the repository that this file stands in; where the
system's loader looks.
"""

import ctypes
import os
from functools import lru_cache
from pathlib import Path

from . import console
from .version import VERSION

JOB_NUMBERS = 583
PLACES = 7
PLACE_NUMBERS = 8
LINE_NUMBERS = 4
MARKS = 519
EDGES_MOST = 64
SHEET_READ_MOST = 8_192
SHEET_WRITTEN_MOST = 5_645
CELLS_MOST = 65_536
NODE_NUMBERS = 11
STORE_MOST = 1_441_088
SPOTS_MOST = 256
NEAREST_NUMBERS = 3

# What the program `clearmap` lends: its map calls refuse with 6 where more is needed.
PROGRAM_STORE = 16_379

MAJOR, MINOR, PATCH = map(int, VERSION.split("."))
# The header's CLEARANCE_VERSION: row length and node width stand in front, so that a library with another row or node differs.
VERSION_NUMBER = ((JOB_NUMBERS * 100 + NODE_NUMBERS) * 1000 + MAJOR) * 1_000_000 + MINOR * 1000 + PATCH
FILE = f"libclearance.so.{MAJOR}"

_int32s = ctypes.POINTER(ctypes.c_int32)
_int64s = ctypes.POINTER(ctypes.c_int64)
_bytes = ctypes.POINTER(ctypes.c_uint8)
_sizes = ctypes.POINTER(ctypes.c_size_t)
_size = ctypes.c_size_t

# Each function's arguments, in the header's order.
ARGUMENTS = {
    "clearance_read": (_bytes, _size, _int32s),
    "clearance_write": (_int32s, _size, _bytes, _size, _sizes),
    "clearance_map": (_int32s, _size, _int32s, _size, _bytes, _size, _sizes),
    "clearance_point": (_int32s, _size, ctypes.c_int32, ctypes.c_int32, _int32s, _size, _int64s),
    "clearance_points": (_int32s, _size, _int32s, _size, _int32s, _size, _int64s, _size),
}

# Of functions that nothing here calls yet, so that a library without them serves too.
FURTHER = {
    "clearance_clamps": (_int32s, _size, _bytes, _size, _sizes, _sizes),
}


class LibraryMissing(console.Ended):
    """No library was found, or one that was built for other rows, nodes or functions."""

    def __init__(self, message):
        super().__init__(console.FAILED, message)


def places():
    """Where the library may be, the first that is there counts."""
    named = os.environ.get("CLEARANCE_LIBRARY")
    if named:
        return [Path(os.path.abspath(named))]
    here = Path(__file__).resolve().parent
    return [here / FILE, here.parents[1] / "build" / "prefix" / "lib" / FILE]


def opened():
    for place in places():
        if place.is_file() or os.environ.get("CLEARANCE_LIBRARY"):
            return load(str(place))
    return load(FILE)


def load(name):
    try:
        return ctypes.CDLL(name)
    except OSError as error:
        raise LibraryMissing(f"the library could not be loaded: {error}; tools/build-library builds it") from error


def told(number):
    """A version number in words."""
    layout, version = divmod(number, 1_000_000_000)
    parts = version // 1_000_000, version // 1000 % 1000, version % 1000
    return "{}.{}.{}".format(*parts) + f" with {layout // 100} numbers a job and {layout % 100} a node"


def check_version(loaded):
    """Ends where the library has other rows or nodes, another major version, or is older than what is used here."""
    loaded.clearance_version.argtypes, loaded.clearance_version.restype = (), ctypes.c_uint64
    found = loaded.clearance_version()
    if found // 1_000_000 != VERSION_NUMBER // 1_000_000 or found // 1000 < VERSION_NUMBER // 1000:
        raise LibraryMissing(f"the library {loaded._name} is {told(found)}; this module is {told(VERSION_NUMBER)}")


@lru_cache(maxsize=None)
def library():
    """The loaded library, once it has told that its rows and nodes are the ones that are known here."""
    loaded = opened()
    try:
        check_version(loaded)
        for name, arguments in ARGUMENTS.items():
            function = getattr(loaded, name)
            function.argtypes, function.restype = arguments, ctypes.c_uint8
        for name, arguments in FURTHER.items():
            if hasattr(loaded, name):
                function = getattr(loaded, name)
                function.argtypes, function.restype = arguments, ctypes.c_uint8
    except AttributeError as error:
        raise LibraryMissing(f"the library {loaded._name} lacks a function: {error}") from error
    return loaded


def lent(bytes_):
    """Bytes to be read by a call."""
    return (ctypes.c_uint8 * len(bytes_)).from_buffer_copy(bytes_) if bytes_ else None


def read(sheet):
    """The refusal and the row of a sheet's job, all zeros where it is refused."""
    row = (ctypes.c_int32 * JOB_NUMBERS)()
    return library().clearance_read(lent(sheet), len(sheet), row), row


def write(row, room=SHEET_WRITTEN_MOST):
    """The refusal and the sheet's bytes, none where it is refused."""
    out, length = (ctypes.c_uint8 * room)(), _size(0)
    refusal = library().clearance_write(row, len(row), out, room, ctypes.byref(length))
    return refusal, bytes(out[: length.value])


def store_of(numbers=STORE_MOST):
    """So many numbers of store to lend: 0 to as many as any job needs."""
    if isinstance(numbers, bool) or not isinstance(numbers, int) or not 0 <= numbers <= STORE_MOST:
        raise ValueError(f"{numbers!r} is no count of store numbers from 0 to {STORE_MOST}")
    return (ctypes.c_int32 * numbers)()


def draw(row, store, room=CELLS_MOST):
    """The refusal, the whole memory that was lent for cells, and the count of nodes. The trees are left in the store."""
    cells, nodes = (ctypes.c_uint8 * room)(), _size(0)
    refusal = library().clearance_map(row, len(row), store, len(store), cells, room, ctypes.byref(nodes))
    return refusal, cells, nodes.value


def trees_in(store, nodes):
    """A copy of a store's trees alone: of what was lent they are often a hundredth, and a part keeps those of many jobs."""
    return (ctypes.c_int32 * (nodes * NODE_NUMBERS)).from_buffer_copy(store)


def point(row, x, y, store):
    """The refusal and lo, hi, edge of one point."""
    nearest = (ctypes.c_int64 * NEAREST_NUMBERS)()
    return library().clearance_point(row, len(row), x, y, store, len(store), nearest), tuple(nearest)


def points(row, spots, store):
    """The refusal and a reply of lo, hi, edge for each point; `spots` has x, y of each in turn."""
    asked = (ctypes.c_int32 * len(spots))(*spots)
    reply = (ctypes.c_int64 * (len(spots) // 2 * NEAREST_NUMBERS))()
    return library().clearance_points(row, len(row), asked, len(spots), store, len(store), reply, len(reply)), reply
