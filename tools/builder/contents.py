"""Where the contents of a root's files stand, and which of them come into its image."""

from collections.abc import Iterator
from dataclasses import dataclass, field
from typing import BinaryIO, Protocol

from tar_stream import TarReader
from tree_folder import FolderReader
from tree_image import MAGIC, Marker, Node, Trouble, node_line, printed_path

INLINE_LIMIT = 128  # a longer content stands aside


class Source(Protocol):
    """Reads contents by what `place` says of them."""

    def pieces(self, place) -> Iterator[bytes]:
        """The contents, piece by piece."""

    def close(self) -> None:
        """Close what the contents are read from."""


@dataclass(slots=True)
class Aside:
    """The contents that stand aside, each by the number in its marker."""

    source: Source
    places: list = field(default_factory=list)

    def add(self, place, length: int) -> Marker:
        """The marker of contents."""
        self.places.append(place)
        return Marker(f"number {len(self.places) - 1}", length)

    def find(self, marker: Marker):
        """What `pieces` takes for the contents of a marker; None if it is not one of this root."""
        kind, number = marker.name.split(" ")
        return self.places[int(number)] if kind == "number" and int(number) < len(self.places) else None

    def pieces(self, place) -> Iterator[bytes]:
        return self.source.pieces(place)


@dataclass(frozen=True, slots=True)
class Place:
    """Where the contents of a member stand in an archive; a `TarReader` reads them as it does a member's."""

    offset: int
    size: int
    segments: list[tuple[int, int]] | None


class ArchiveSource:
    """Reads contents out of an archive that can be read at any offset."""

    def __init__(self, file: BinaryIO) -> None:
        self._reader = TarReader(file)
        self.close = file.close

    def pieces(self, place: Place) -> Iterator[bytes]:
        self._reader.seek(place.offset)
        return self._reader.contents(place)

    def read(self, place: Place) -> bytes:
        """All contents at once."""
        return b"".join(self.pieces(place))


class FolderSource:
    """Reads contents out of a prepared folder, by their path in the tree."""

    def __init__(self, reader: FolderReader, nodes: dict[bytes, Node]) -> None:
        self._reader = reader
        self._nodes = nodes

    def pieces(self, place: bytes) -> Iterator[bytes]:
        return self._reader.pieces(self._nodes[place])

    def read(self, place: bytes) -> bytes:
        """All contents at once."""
        return b"".join(self.pieces(place))

    def close(self) -> None:
        """Nothing is open: each file is opened when it is read."""


def _content(data: bytes, place, aside: Aside, path: bytes, keeps: bool) -> bytes:
    """The content of a short file, or of one that the program reads: its bytes, unless they begin as a marker does."""
    if not data.startswith(MAGIC):
        return data
    if keeps:
        raise Trouble(f"{printed_path(path)}: configuration that begins as the marker of a large file does")
    return aside.add(place, len(data)).text()


@dataclass(slots=True)
class Lines:
    """Makes the lines of nodes. Names of one object share their content, and a place says where contents stand."""

    aside: Aside
    kept: frozenset  # numbers of objects whose contents the program reads
    done: dict = field(default_factory=dict)

    def line(self, node: Node, number, place, size: int) -> bytes:
        """The line of a file."""
        if number not in self.done:
            keeps = number in self.kept
            if size > INLINE_LIMIT and not keeps:
                self.done[number] = self.aside.add(place, size).text()
            else:
                data = b"".join(self.aside.pieces(place))
                self.done[number] = _content(data, place, self.aside, node.path, keeps)
        return node_line(node, self.done[number])
