"""The root file system that a command works on: its tree image, and where the contents of its files stand.

In the image the contents of every file stand aside, but for what the program
reads itself (configuration, account files) and for what is shorter than a
marker. So an image is small whatever is in the files, and memory does not grow
with them.
"""

import binascii
import hashlib
import os
from collections.abc import Iterable, Iterator
from dataclasses import dataclass, field, replace
from typing import BinaryIO

from .contents import INLINE_LIMIT, ArchiveSource, Aside, FolderSource, Lines, Place
from .inputs import open_archive, shown_name
from .program import CannotRun
from hard_links import groups_of
from tar_stream import Member, TarReader
from tar_to_image import Builder, Entry, all_facts, read_tar
from tree_folder import FolderReader
from tree_image import (
    LONGEST_IMAGE, Node, Notices, Trouble, head_lines, is_configuration, node_line, printed_path, read_marker,
)


@dataclass(frozen=True, slots=True)
class Loss:
    """What a tree image cannot hold: about which path or input, and what."""

    about: str
    text: str


@dataclass(slots=True)
class Root:
    """A root: the name of its input, its image and facts, its contents, hard links and sparse files.

    `losses` are the things of the input that are not in the image.
    """

    name: str
    image: bytes
    facts: dict[str, bytes]
    aside: Aside
    is_folder: bool = False
    hard_links: list[list[bytes]] = field(default_factory=list)
    sparse: list[bytes] = field(default_factory=list)
    losses: list[Loss] = field(default_factory=list)

    def close(self) -> None:
        """Close the archive, after which no contents can be read."""
        self.aside.source.close()

    def size(self, content: bytes) -> int:
        """The length of what the content of a node stands for."""
        found = read_marker(content)
        return len(content) if found is None else found[0].length + len(found[1])

    def are_same(self, one: bytes, other: bytes) -> bool:
        """Whether two contents of nodes stand for the same bytes."""
        if one == other:
            return True
        return self.size(one) == self.size(other) and self._digest(one) == self._digest(other)

    def _digest(self, content: bytes) -> bytes:
        digest = hashlib.sha256()
        for piece in self.pieces(content):
            digest.update(piece)
        return digest.digest()

    def pieces(self, content: bytes) -> Iterator[bytes]:
        """What the content of a node stands for, piece by piece."""
        found = read_marker(content)
        if found is None:
            yield content
            return
        marker, added = found
        place = self.aside.find(marker)
        if place is None:
            raise Trouble("no file of the root has the contents of a marker")
        yield from self.aside.pieces(place)
        yield added


class _Notices(Notices):
    """Keeps what reading a root warns of. Notes of the converters are not for users of this tool."""

    def __init__(self, name: str) -> None:
        super().__init__("provision-image")
        self.name = name
        self.losses: list[Loss] = []

    def note(self, text: str) -> None:
        pass

    def warn(self, text: str) -> None:
        self.losses.append(Loss(self.name, text))

    def warn_of(self, path: bytes, text: str) -> None:
        """A warning about a path."""
        self.losses.append(Loss(printed_path(path), text))


class _ArchiveBuilder(Builder):
    """Makes nodes of members whose contents stay in the archive."""

    def __init__(self, notices: _Notices, file: BinaryIO) -> None:
        super().__init__(notices, INLINE_LIMIT, frozenset(), store=ArchiveSource(file))
        self.sparse: list[bytes] = []

    def _content(self, node: Entry, reader: TarReader, member: Member) -> Place:
        if member.segments is not None:
            self.sparse.append(node.path)
        return Place(member.offset, member.size, member.segments)

    def warn(self, path: bytes, text: str) -> None:
        self.notices.warn_of(path, text)

    def _say_hard_link(self, path: bytes, first: bytes) -> None:
        """Nothing is said: hard links come back as they were."""


def _image(facts: dict[str, bytes], lines: Iterable[bytes], name: str) -> bytes:
    """The image of a tree; one that the program would not read is refused."""
    image = b"".join([head_lines(facts), *lines, b"end\n"])
    if len(image) > LONGEST_IMAGE:
        raise CannotRun(f"{name}: its tree image has {len(image)} bytes; the program reads {LONGEST_IMAGE}")
    return image


def _keeps(path: bytes, inline: frozenset[bytes]) -> bool:
    """Whether the program reads the contents of a file."""
    return is_configuration(path) or path in inline


def _archive_root(path: str, inline: frozenset[bytes], facts: dict[str, bytes], notices: _Notices) -> Root:
    """The root in an archive."""
    file = open_archive(path)
    builder = _ArchiveBuilder(notices, file)
    nodes = read_tar(file, builder, by_seek=True)
    aside = Aside(builder.store)
    lines = Lines(aside, frozenset(it.number for it in nodes if it.kind == "f" and _keeps(it.path, inline)))
    name = shown_name(path)
    known = all_facts(builder, facts)
    image = _image(known, (lines.line(it, it.number, it.content, it.content.size) if it.kind == "f" else node_line(it)
                           for it in nodes), name)
    links = [[it.path for it in group] for group in groups_of((it.number, it) for it in nodes if it.kind != "d")]
    return Root(name, image, known, aside, False, links, builder.sparse)


def _folder_root(path: str, inline: frozenset[bytes], facts: dict[str, bytes], notices: _Notices) -> Root:
    """The root in a prepared folder."""
    reader = FolderReader(path)
    nodes = {node.path: node for node in reader.nodes()}
    links = [[node.path for node in group] for group in reader.hard_links(nodes.values())]
    numbers = {name: group[0] for group in links for name in group}
    kept = frozenset(numbers.get(name, name) for name, it in nodes.items() if it.kind == "f" and _keeps(name, inline))
    aside = Aside(FolderSource(reader, nodes))
    lines = Lines(aside, kept)
    image_lines = (lines.line(it, numbers.get(it.path, it.path), it.path, reader.size(it)) if it.kind == "f"
                   else node_line(it) for it in nodes.values())
    known = _folder_facts(nodes, aside.source, reader.facts | facts, notices)
    return Root(path, _image(known, image_lines, path), known, aside, True, links)


def _folder_facts(nodes: dict[bytes, Node], source: FolderSource, facts: dict[str, bytes],
                  notices: _Notices) -> dict[str, bytes]:
    """The facts of a folder's tree, and those that its manifest and the user give."""
    finder = Builder(notices, INLINE_LIMIT, frozenset(), store=source)
    finder.nodes = {path: replace(node, content=path) for path, node in nodes.items() if node.kind in "dfl"}
    return all_facts(finder, facts)


def open_root(path: str, *, inline: frozenset[bytes] = frozenset(), facts: dict[str, bytes] | None = None,
              strict: bool = False) -> Root:
    """The root at a path: an archive, plain or packed, `-` for standard input, or a prepared folder.

    `inline`: paths of further files whose contents the program reads. `facts` come before those of the root.
    With `strict`, what a tree image cannot hold is an error. Raises CannotRun.
    """
    notices = _Notices(shown_name(path))
    is_folder = path != "-" and os.path.isdir(path)
    if is_folder and not os.path.isdir(os.path.join(path, "tree")):
        raise CannotRun(f"{path}: a directory without `tree` is not a prepared folder; "
                        "`tar_to_image --folder` makes one of an archive")
    try:
        root = (_folder_root if is_folder else _archive_root)(path, inline, facts or {}, notices)
    except (Trouble, binascii.Error) as trouble:
        raise CannotRun(f"{shown_name(path)}: {trouble}") from None
    except OSError as fault:
        raise CannotRun(f"{fault.filename or shown_name(path)}: {fault.strerror or fault}") from None
    if strict and notices.losses:
        first = notices.losses[0]
        raise CannotRun(f"{root.name}: {len(notices.losses)} things that a tree image cannot hold, which --strict "
                        f"makes an error; the first: {first.about}: {first.text}")
    root.losses = notices.losses
    return root
