"""Compressed archives: gzip, xz, bzip2 and zstd, read by their first bytes and written by a name's ending."""

import bz2
import gzip
import importlib
import lzma
import shutil
import subprocess
import tempfile
import zlib
from collections.abc import Callable, Iterator
from contextlib import contextmanager
from typing import BinaryIO

from .program import CannotRun

MAGICS = {b"\x1f\x8b": "gzip", b"BZh": "bzip2", b"\xfd7zXZ\0": "xz", b"\x28\xb5\x2f\xfd": "zstd"}
ENDINGS = {".gz": "gzip", ".tgz": "gzip", ".bz2": "bzip2", ".tbz2": "bzip2", ".xz": "xz", ".txz": "xz",
           ".zst": "zstd", ".tzst": "zstd"}
FAULTS = (EOFError, zlib.error, lzma.LZMAError, gzip.BadGzipFile)
GZIP_LEVEL = 6  # that of the program gzip
NO_ZSTD = "zstd needs the program `zstd`, or Python 3.14 or later"


def packing_of_bytes(first: bytes) -> str | None:
    """The packing that a file's first bytes show; None for a plain one."""
    return next((packing for magic, packing in MAGICS.items() if first.startswith(magic)), None)


def packing_of_name(name: str) -> str | None:
    """The packing that a file's name asks for."""
    return next((packing for ending, packing in ENDINGS.items() if name.endswith(ending)), None)


def _zstd_module():
    """The module for zstd of Python 3.14; None on an older one."""
    try:
        return importlib.import_module("compression.zstd")
    except ImportError:
        return None


@contextmanager
def unpacked(file: BinaryIO, packing: str) -> Iterator[BinaryIO]:
    """What a packed file stands for, to be read from its beginning to its end."""
    if packing == "zstd":
        with _unpacked_zstd(file) as plain:
            yield plain
        return
    openers: dict[str, Callable] = {"gzip": gzip.open, "bzip2": bz2.open, "xz": lzma.open}
    with openers[packing](file, "rb") as plain:
        yield plain


@contextmanager
def _unpacked_zstd(file: BinaryIO) -> Iterator[BinaryIO]:
    program, module = shutil.which("zstd"), _zstd_module()
    if program is None and module is None:
        raise CannotRun(NO_ZSTD)
    if program is None:
        with module.open(file, "rb") as plain:
            yield plain
        return
    with tempfile.TemporaryFile() as said:
        child = subprocess.Popen([program, "-dcq"], stdin=file, stdout=subprocess.PIPE, stderr=said)
        with child.stdout as plain:
            yield plain
        if child.wait() != 0:
            said.seek(0)
            raise EOFError(said.read().decode(errors="replace").strip())


@contextmanager
def packed(file: BinaryIO, packing: str | None) -> Iterator[BinaryIO]:
    """A file to write to; what is written comes into `file` packed. The same bytes give the same bytes."""
    if packing is None:
        yield file
    elif packing == "gzip":
        with gzip.GzipFile("", "wb", GZIP_LEVEL, file, 0) as sink:
            yield sink
    elif packing == "zstd":
        with _packed_zstd(file) as sink:
            yield sink
    else:
        with (bz2 if packing == "bzip2" else lzma).open(file, "wb") as sink:
            yield sink


@contextmanager
def _packed_zstd(file: BinaryIO) -> Iterator[BinaryIO]:
    program, module = shutil.which("zstd"), _zstd_module()
    if program is None and module is None:
        raise CannotRun(NO_ZSTD)
    if program is None:
        with module.open(file, "wb") as sink:
            yield sink
        return
    file.flush()
    child = subprocess.Popen([program, "-cq"], stdin=subprocess.PIPE, stdout=file)
    try:
        with child.stdin as sink:
            yield sink
    finally:
        status = child.wait()
    if status != 0:
        raise OSError(f"zstd ended with status {status}")
