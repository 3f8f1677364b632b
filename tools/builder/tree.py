"""The tree of an image as nodes by path, and what differs between two trees."""

import io
from collections.abc import Iterator
from dataclasses import dataclass

from .program import CannotRun
from hard_links import essence
from tree_image import ImageReader, Node, Trouble, node_line, path_key, printed, unprinted


@dataclass(frozen=True, slots=True)
class Change:
    """A path at which two trees differ in more than timestamps; None on the side where nothing is."""

    path: bytes
    before: Node | None
    after: Node | None


def read_tree(image: bytes) -> dict[bytes, Node]:
    """The nodes of an image by path, in order of paths; the content of a file is its bytes."""
    try:
        return {node.path: node for node in ImageReader(io.BytesIO(image)).nodes()}
    except Trouble as trouble:
        raise CannotRun(f"the program gave an image that cannot be read: {trouble}") from None


def changes(before: dict[bytes, Node], after: dict[bytes, Node]) -> Iterator[Change]:
    """Each path at which the trees differ in more than timestamps, in order of paths."""
    for path in sorted(before.keys() | after.keys(), key=path_key):
        old, new = before.get(path), after.get(path)
        if old is None or new is None or essence(old) != essence(new):
            yield Change(path, old, new)


def _line_path(line: bytes) -> bytes | None:
    """The path of the line of a node; None for other lines."""
    fields = line.split(b" ", 2)
    if len(fields) < 3 or len(fields[0]) != 1 or not fields[1].startswith(b"/"):
        return None
    return unprinted(fields[1])


def with_file(image: bytes, path: bytes, content: bytes) -> bytes:
    """An image with one more file of the superuser, in a directory that is there."""
    lines = image.splitlines(keepends=True)
    key = path_key(path)
    for at, line in enumerate(lines):
        other = _line_path(line)
        if line == b"end\n" or other is not None and path_key(other) > key:
            return b"".join([*lines[:at], node_line(Node("f", path, 0o644), content), *lines[at:]])
    return image


def without_file(image: bytes, path: bytes) -> bytes:
    """An image without the file at a path."""
    start = image.index(b"\nf " + printed(path) + b" ") + 1
    return image[:start] + image[image.index(b"\n", start) + 1:]
