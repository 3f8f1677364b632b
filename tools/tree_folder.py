"""A file tree in a folder: its directories and files are real, and a manifest has all else.

    FOLDER/tree       directories and files with their bytes
    FOLDER/manifest   a tree image whose files all have the payload `-`
    FOLDER/contents   the bytes of large files, by their SHA-256, where there are such

The manifest has owners, modes, ACLs, stamps, attributes and letters of what is
real, and the links, FIFOs and devices, which are not. What is real and not in
the manifest has the mode 0755 or 0644, the owner 0:0 and stamps 0; a directory
or a file of the manifest that is not real is none; a link, a FIFO or a device
counts where its path is not real and lies in a real directory.

A run takes at most 64 MiB in the files of a folder. If there are more, large
files hold a marker in `tree`, and their bytes stand in `contents`, which no
run looks at. Only in a folder that has `contents` does a file that begins as a
marker does stand for other bytes.

Real directories have the mode 0700 and real files 0600, whatever the tree's
own modes are, so that nobody else reads the tree's secrets through the folder.
"""

import hashlib
import os
import stat
from collections.abc import Iterable, Iterator
from pathlib import Path
from typing import Protocol

from hard_links import groups_of
from tree_image import (
    MAGIC, ImageReader, Marker, Node, Notices, Trouble, digest_marker, head_lines, is_configuration, node_line,
    parent_of, path_key, printed_path, read_marker,
)

PIECE = 1 << 20
MOST_OBJECTS = 1000000
MOST_BYTES = 67108864
LARGE = 65536
LEAST_LARGE = 256  # a marker is no longer
REAL_KINDS = "df"
CONTENTS = "contents"


class FileBytes(Protocol):
    """The bytes of the files of a tree."""

    def size(self, node: Node) -> int:
        """The length of a file."""

    def pieces(self, node: Node) -> Iterator[bytes]:
        """The bytes of a file, piece by piece."""


def aside_limit(files: list[tuple[Node, int]]) -> int | None:
    """The length over which files stand aside, so that the rest is half of what a run takes; None if all fit."""
    if sum(size for _, size in files) <= MOST_BYTES:
        return None
    sizes = [size for node, size in files if not is_configuration(node.path)]
    limit = LARGE
    while limit > LEAST_LARGE and sum(size for size in sizes if size <= limit) > MOST_BYTES // 2:
        limit //= 2
    return limit


class FolderWriter:
    """Writes a tree into a folder: `write` does all of it."""

    def __init__(self, top: Path, files: FileBytes, limit: int | None) -> None:
        self._top = top
        self._root = os.fsencode(top / "tree")
        self._files = files
        self._limit = limit

    def write(self, facts: dict[str, bytes], nodes: Iterable[Node], first_names: dict[bytes, bytes]) -> None:
        """Write all nodes; a name that `first_names` has is a hard link to that name. The manifest comes last."""
        with open(_new_file(os.fsencode(self._top / "manifest.new")), "wb") as manifest:
            manifest.write(head_lines(facts))
            for node in nodes:
                if node.kind == "d":
                    os.mkdir(self._location(node.path), 0o700)
                elif node.kind == "f" and node.path in first_names:
                    os.link(self._location(first_names[node.path]), self._location(node.path))
                elif node.kind == "f":
                    self._write_file(node)
                manifest.write(node_line(node))
            manifest.write(b"end\n")
        os.rename(self._top / "manifest.new", self._top / "manifest")

    def _location(self, path: bytes) -> bytes:
        return _location(self._root, path)

    def _write_file(self, node: Node) -> None:
        """Write the bytes of a file, or those of its marker after the bytes came to stand aside."""
        pieces = self._files.pieces(node)
        first = next(pieces, b"")
        if self._stands_aside(node, first):
            first, pieces = self._set_aside(first, pieces).text(), iter(())
        with open(_new_file(self._location(node.path)), "wb") as file:
            file.write(first)
            for piece in pieces:
                file.write(piece)

    def _stands_aside(self, node: Node, first: bytes) -> bool:
        """Whether the bytes of a file stand aside; `first` is their first piece."""
        if not is_configuration(node.path):
            return first.startswith(MAGIC) or self._limit is not None and self._files.size(node) > self._limit
        if first.startswith(MAGIC):
            raise Trouble(f"{printed_path(node.path)}: configuration that begins as the marker of a large file does")
        return False

    def _set_aside(self, first: bytes, rest: Iterator[bytes]) -> Marker:
        """Write bytes into `contents`, and give their marker."""
        aside = self._top / CONTENTS
        aside.mkdir(0o700, exist_ok=True)
        digest, length = hashlib.sha256(first), len(first)
        with open(_new_file(os.fsencode(aside / "new")), "wb") as file:
            file.write(first)
            for piece in rest:
                file.write(piece)
                digest.update(piece)
                length += len(piece)
        os.rename(aside / "new", aside / digest.hexdigest())
        return digest_marker(digest.hexdigest(), length)


def write_folder(folder: str, facts: dict[str, bytes], nodes: list[Node], files: FileBytes, notices: Notices,
                 first_names: dict[bytes, bytes] | None = None) -> None:
    """Write a tree into a folder that is absent or empty."""
    top = Path(folder)
    for node in nodes:
        _check_name(node)
    sized = [(node, files.size(node)) for node in nodes if node.kind == "f"]
    limit = aside_limit(sized)
    _warn_of_size(nodes, sized, limit, notices)
    if notices.failed():
        return
    if limit is not None:
        notices.note(f"files over {limit} bytes stand aside in {folder}/{CONTENTS}, so that a run takes the folder")
    top.mkdir(0o700, exist_ok=True)
    if any(top.iterdir()):
        raise Trouble(f"{folder}: the folder is not empty")
    FolderWriter(top, files, limit).write(facts, nodes, first_names or {})


def _warn_of_size(nodes: list[Node], files: list[tuple[Node, int]], limit: int | None, notices: Notices) -> None:
    """Warn of more than a run takes, before anything is written."""
    objects = sum(node.kind in REAL_KINDS and node.path != b"/" for node in nodes)
    size = sum(size if limit is None or size <= limit or is_configuration(node.path) else LEAST_LARGE
               for node, size in files)
    if objects > MOST_OBJECTS or size > MOST_BYTES:
        notices.warn(f"{objects} objects with {size} bytes; the program takes {MOST_OBJECTS} with {MOST_BYTES}")


def _check_name(node: Node) -> None:
    """Refuse a name that the program could not read in a folder."""
    try:
        node.path.decode()
    except UnicodeDecodeError:
        raise Trouble(f"{printed_path(node.path)}: a name that is not UTF-8; the program reads none "
                      "in a folder") from None


def _new_file(path: bytes) -> int:
    """A new file that only its owner can read, opened to be written."""
    return os.open(path, os.O_WRONLY | os.O_CREAT | os.O_EXCL | os.O_CLOEXEC, 0o600)


def _location(root: bytes, path: bytes) -> bytes:
    """Where a path of the tree lies on the machine."""
    return root if path == b"/" else root + path


class FolderReader:
    """Reads a tree out of a folder: `facts`, the `nodes` in order, and the bytes of a file."""

    def __init__(self, folder: str) -> None:
        self._top = Path(folder)
        self._root = os.fsencode(self._top / "tree")
        self._has_aside = (self._top / CONTENTS).is_dir()
        self.facts: dict[str, bytes] = {}
        self._said: dict[bytes, Node] = {}
        self._read_manifest()

    def _read_manifest(self) -> None:
        try:
            file = open(self._top / "manifest", "rb")
        except FileNotFoundError:
            return
        with file:
            image = ImageReader(file)
            self._said = {node.path: node for node in image.nodes()}
            self.facts = image.facts

    def nodes(self) -> Iterator[Node]:
        """The nodes of the manifest merged with what is real, in order."""
        real = dict(self._real_kinds())
        paths = set(real)
        for path, node in self._said.items():
            if node.kind not in REAL_KINDS and path not in real and real.get(parent_of(path)) == "d":
                paths.add(path)
        for path in sorted(paths, key=path_key):
            yield self._node(path, real.get(path))

    def _node(self, path: bytes, kind: str | None) -> Node:
        said = self._said.get(path)
        if said is not None and kind in (None, said.kind):
            return said
        return Node(kind, path, 0o755 if kind == "d" else 0o644)

    def _real_kinds(self) -> Iterator[tuple[bytes, str]]:
        """The paths below `tree` and whether each is a directory or a file."""
        if not self._top.joinpath("tree").is_dir() or self._top.joinpath("tree").is_symlink():
            raise Trouble(f"{self._top}: it has no directory `tree`")
        waiting = [b"/"]
        yield b"/", "d"
        while waiting:
            above = waiting.pop()
            with os.scandir(_location(self._root, above)) as items:
                for item in items:
                    path = above.rstrip(b"/") + b"/" + os.fsencode(item.name)
                    kind = self._kind(item, path)
                    if kind == "d":
                        waiting.append(path)
                    yield path, kind

    @staticmethod
    def _kind(item: os.DirEntry, path: bytes) -> str:
        if item.is_dir(follow_symlinks=False):
            return "d"
        if item.is_file(follow_symlinks=False):
            return "f"
        raise Trouble(f"{printed_path(path)}: below `tree` there are only directories and files")

    def hard_links(self, nodes: Iterable[Node]) -> list[list[Node]]:
        """The files that are names of one real file, for each real file with several names."""
        named = []
        for node in nodes:
            if node.kind == "f":
                real = os.stat(_location(self._root, node.path), follow_symlinks=False)
                if real.st_nlink > 1:
                    named.append(((real.st_dev, real.st_ino), node))
        return groups_of(named)

    def size(self, node: Node) -> int:
        """The length of a file, with that of what stands aside."""
        length = os.stat(_location(self._root, node.path), follow_symlinks=False).st_size
        aside = self._aside(node)
        return length if aside is None else aside[0].length + len(aside[1])

    def pieces(self, node: Node) -> Iterator[bytes]:
        """The bytes of a file, with what stands aside in place of its marker."""
        aside = self._aside(node)
        if aside is None:
            yield from self._real_pieces(node)
            return
        marker, added = aside
        yield from self._contents(node, marker)
        if added:
            yield added

    def _contents(self, node: Node, marker: Marker) -> Iterator[bytes]:
        """The bytes that stand aside for a marker."""
        try:
            file = open(self._top / CONTENTS / marker.name.removeprefix("sha256 "), "rb")
        except FileNotFoundError:
            raise Trouble(f"{printed_path(node.path)}: its contents are not in {self._top / CONTENTS}") from None
        with file:
            while data := file.read(PIECE):
                yield data

    def _aside(self, node: Node) -> tuple[Marker, bytes] | None:
        """The marker that a file begins with, and what a run has added to it; only where bytes stand aside."""
        if not self._has_aside or is_configuration(node.path):
            return None
        if next(self._real_pieces(node, len(MAGIC)), b"") != MAGIC:
            return None
        try:
            return read_marker(b"".join(self._real_pieces(node)))
        except ValueError as fault:
            raise Trouble(f"{printed_path(node.path)}: {fault}") from None

    def _real_pieces(self, node: Node, piece: int = PIECE) -> Iterator[bytes]:
        """The bytes of a real file, which is opened itself and not what a link there leads to."""
        handle = os.open(_location(self._root, node.path), os.O_RDONLY | os.O_NOFOLLOW | os.O_CLOEXEC)
        with open(handle, "rb") as file:
            if not stat.S_ISREG(os.fstat(handle).st_mode):
                raise Trouble(f"{printed_path(node.path)}: it is no file any more")
            while data := file.read(piece):
                yield data
