"""Opens the archive that a command is given: a file, or standard input, packed or not."""

import os
import shutil
import stat
import sys
import tempfile
from typing import BinaryIO

from .packing import FAULTS, packing_of_bytes, unpacked
from .program import CannotRun
from .progress import Bar, Watched

PIECE = 1 << 20
FIRST_BYTES = 8


def room() -> str | None:
    """The folder for large files without a name: TMPDIR, otherwise /var/tmp if that can be written."""
    given = os.environ.get("TMPDIR")
    return given if given else "/var/tmp" if os.access("/var/tmp", os.W_OK) else None


def shown_name(path: str) -> str:
    """An input as messages name it."""
    return "standard input" if path == "-" else path


def open_archive(path: str) -> BinaryIO:
    """The plain archive at a path, or on standard input for `-`, as a file that can be read at any offset.

    A packed archive, and one that comes through a pipe, is copied into a file without a name.
    """
    try:
        if path == "-":
            return _seekable(sys.stdin.buffer, path)
        file = open(path, "rb")
    except OSError as fault:
        raise CannotRun(f"{path}: {fault.strerror}") from None
    plain = _seekable(file, path)
    if plain is not file:
        file.close()
    return plain


def _seekable(file: BinaryIO, path: str) -> BinaryIO:
    """The file itself if it is plain and regular, otherwise a copy of what it stands for."""
    try:
        first = file.peek(FIRST_BYTES)[:FIRST_BYTES]
        packing = packing_of_bytes(first)
        if packing is None and stat.S_ISREG(os.fstat(file.fileno()).st_mode) and file.tell() == 0:
            return file
        return _spooled(file, path, packing)
    except FAULTS as fault:
        raise CannotRun(f"{shown_name(path)}: the compressed data is damaged or cut off: {fault}") from None
    except OSError as fault:
        raise CannotRun(f"{shown_name(path)}: {fault.strerror or fault}") from None


def _spooled(file: BinaryIO, path: str, packing: str | None) -> BinaryIO:
    """A copy of what a file stands for, in a file without a name."""
    copy = tempfile.TemporaryFile(dir=room())
    bar = Bar(f"reading {shown_name(path)}", _length(file))
    if packing is None:
        shutil.copyfileobj(Watched(file, bar), copy, PIECE)
    elif packing == "zstd":  # its program reads the file itself
        with unpacked(_whole(file), packing) as plain:
            shutil.copyfileobj(plain, copy, PIECE)
    else:
        with unpacked(Watched(file, bar), packing) as plain:
            shutil.copyfileobj(plain, copy, PIECE)
    bar.end()
    copy.seek(0)
    return copy


def _whole(file: BinaryIO) -> BinaryIO:
    """A file that another program can read from its first byte on, though its first bytes were looked at."""
    if file.seekable():
        os.lseek(file.fileno(), 0, os.SEEK_SET)
        return file
    copy = tempfile.TemporaryFile(dir=room())
    shutil.copyfileobj(file, copy, PIECE)
    copy.seek(0)
    return copy


def _length(file: BinaryIO) -> int:
    """The length of a regular file; 0 of a pipe, which no bar is drawn for."""
    found = os.fstat(file.fileno())
    return found.st_size if stat.S_ISREG(found.st_mode) else 0
