"""What the verbs of the command share: how they end, read, write and speak.

Status: 0 done, 1 refused or a finding, 2 bad usage, 3 reading or writing failed. Messages go to standard error.
"""

import errno
import os
import stat
import sys
import time

DONE, FOUND, MISUSED, FAILED = range(4)
STATUS = "exit status: 0 done; 1 refused or a finding; 2 bad usage; 3 reading or writing failed."


class Ended(Exception):
    """The verb cannot go on: its status, and one message for standard error, which names the file first."""

    def __init__(self, status, message):
        super().__init__(message)
        self.status = status


def found(message):
    return Ended(FOUND, message)


def misused(message):
    return Ended(MISUSED, message)


def failed(path, error):
    """Reading or writing a file failed with an OSError."""
    return Ended(FAILED, f"{path}: {error.strerror or error}")


# Messages that could not be written. What was to be said is part of the answer.
unsaid = []


def say(message):
    # Without standard error there is nobody to tell; print would take standard output then.
    if sys.stderr is not None:
        try:
            print(f"clearance: {message}", file=sys.stderr, flush=True)
        except OSError:
            unsaid.append(message)


def at(path, line=0, column=0):
    """A place in a file as messages name it: FILE:LINE:COLUMN, counted from 1; 0 where there is none."""
    return ":".join([path, *(str(number) for number in (line, column) if number)])


def read_bytes(path, limit=None):
    """The bytes of a file, or of standard input for `-`; one past the limit at most, enough to know that it is too long."""
    most = -1 if limit is None else limit + 1
    try:
        if path == "-":
            return opened(sys.stdin).buffer.read(most)
        with open(path, "rb") as file:
            return file.read(most)
    except OSError as error:
        raise failed(path, error) from error


def opened(stream):
    """A standard stream; Python has none where it was closed from the start."""
    if stream is None:
        raise OSError(errno.EBADF, os.strerror(errno.EBADF))
    return stream


def write_bytes(path, data):
    """Writes a file whole or not at all: under another name in the same folder first. `-` is standard output.

    A link is followed, and what is no plain file, a pipe or a device, is written to and not replaced.
    """
    if path == "-":
        return put(data)
    target = os.path.realpath(path)
    beside = os.path.join(os.path.dirname(target), f".clearance-{os.getpid()}.part")
    try:
        if os.path.exists(target) and not os.path.isfile(target):
            beside = None
        with open(beside or target, "wb") as file:
            file.write(data)
        if beside:
            if os.path.exists(target):
                os.chmod(beside, stat.S_IMODE(os.stat(target).st_mode))
            os.replace(beside, target)
    except OSError as error:
        if beside and os.path.exists(beside):
            os.remove(beside)
        raise failed(path, error) from error
    return None


def write_all(files):
    """Writes all files or none: several are written under other names first, and put in their places when all are there."""
    if len(files) == 1:
        write_bytes(*files[0])
        return
    beside = {name: f"{name}.part{os.getpid()}" for name, _ in files}
    try:
        for name, data in files:
            if os.path.lexists(name) and not os.path.isfile(name):
                raise FileExistsError(errno.EEXIST, "it is there and no file")
            with open(beside[name], "wb") as file:
                file.write(data)
        for name, other in beside.items():
            os.replace(other, name)
    except OSError as error:
        raise failed(name, error) from error
    finally:
        for other in beside.values():
            if os.path.exists(other):
                os.remove(other)


def put(data):
    """Bytes or text to standard output."""
    if isinstance(data, str):
        # A file's name may have bytes that are no text.
        data = data.encode("utf-8", "surrogateescape")
    try:
        out = opened(sys.stdout).buffer
        rest = memoryview(data)
        while rest:
            # An unbuffered stream writes a part, or nothing where it would have to wait.
            written = out.write(rest)
            if not written:
                raise BlockingIOError(errno.EAGAIN, os.strerror(errno.EAGAIN))
            rest = rest[written:]
        out.flush()
    except BrokenPipeError:
        raise
    except OSError as error:
        raise failed("standard output", error) from error


def put_json(value):
    import json  # when it is used: the command starts quicker without

    put(json.dumps(value, indent=2) + "\n")


class Progress:
    """A line on a terminal that tells how far work is, from a second on; nothing where standard error is none."""

    def __init__(self, total):
        self.total = total
        self.start = time.monotonic()
        self.shown = False

    def step(self, done, name):
        if sys.stderr is not None and sys.stderr.isatty() and (self.shown or time.monotonic() - self.start > 1):
            sys.stderr.write(f"\r\x1b[K{done} of {self.total}: {name}")
            sys.stderr.flush()
            self.shown = True

    def end(self):
        if self.shown:
            sys.stderr.write("\r\x1b[K")
            sys.stderr.flush()
