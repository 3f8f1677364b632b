"""The configuration files that an image holds, and an image with other ones in their place."""

import binascii
import re
from collections.abc import Callable
from dataclasses import dataclass
from functools import cached_property

from tree_image import unprinted

from .catalogue_form import SYSUSERS
from .fields import BLANKS

_FACT = re.compile(rb"^fact ([A-Za-z]) ", re.MULTILINE)
_ACCOUNT_FILES = (b"/etc/passwd", b"/etc/group")  # names are looked up here


def node_line(image: bytes, path: bytes) -> bytes | None:
    """The line of the object at a printed path; nothing if it is absent."""
    found = re.search(rb"^[dflpcb] " + re.escape(path) + rb" .*$", image, re.MULTILINE)
    return found[0] if found else None


def has_path(image: bytes, path: bytes) -> bool:
    """Whether an image has an object at a printed path."""
    return node_line(image, path) is not None


def without_path(image: bytes, path: bytes) -> bytes:
    """The image without the object at a printed path and all that is below it."""
    return re.sub(rb"^[dflpcb] " + re.escape(path) + rb"(?:/\S*)? .*\n", b"", image, flags=re.MULTILINE)


@dataclass(frozen=True)
class ImageFiles:
    """The files of an image, found by their paths without reading all of it."""

    image: bytes

    def content(self, path: bytes) -> bytes | None:
        """The bytes of the file at a printed path; nothing if there is no file."""
        head = b"\nf " + path + b" "
        at = self.image.find(head)
        if at < 0:
            return None
        line = self.image[at + 1:self.image.index(b"\n", at + 1)]
        payload = line[line.rindex(b" ") + 1:]
        return b"" if payload == b"-" else binascii.a2b_base64(payload)

    def line(self, path: bytes, number: int) -> bytes | None:
        """A line of the file at a printed path, counted from 1; nothing if there is no such line."""
        content = self.content(path)
        lines = content.split(b"\n") if content is not None else []
        return lines[number - 1] if 1 <= number <= len(lines) else None

    @cached_property
    def facts(self) -> frozenset[bytes]:
        """The letters of the facts of the image."""
        head = self.image[:self.image.find(b"\nd / ") + 1]
        return frozenset(_FACT.findall(head))

    @cached_property
    def accounts(self) -> frozenset[bytes]:
        """The names of all users and groups."""
        names: set[bytes] = set()
        for path in _ACCOUNT_FILES:
            names.update(line.split(b":")[0] for line in (self.content(path) or b"").split(b"\n"))
        return frozenset(names)

    def _accounts_in(self, path: bytes) -> list[tuple[bytes, bytes]]:
        """The names and the numbers of an account file."""
        lines = [line.split(b":") for line in (self.content(path) or b"").split(b"\n")]
        return [(fields[0], fields[2]) for fields in lines if len(fields) > 2]

    def holders(self, number: int) -> list[bytes]:
        """The users and groups that have a number."""
        return list(dict.fromkeys(name for path in _ACCOUNT_FILES for name, text in self._accounts_in(path)
                                  if text == b"%d" % number))

    def number_of(self, name: bytes) -> int | None:
        """The number of a user, or of a group if there is no such user."""
        found = (int(text) for path in _ACCOUNT_FILES for other, text in self._accounts_in(path)
                 if other == name and text.isdigit())
        return next(found, None)

    def owners(self, uid: bytes, gid: bytes) -> str:
        """A user and a group by their names, where they have one."""
        names = (next((name for name, text in self._accounts_in(path) if text == number), number)
                 for path, number in zip(_ACCOUNT_FILES, (uid, gid)))
        return b":".join(names).decode(errors="backslashreplace")


@dataclass(frozen=True, order=True, slots=True)
class Place:
    """A line of a configuration file: the printed path of the file, and the number of the line."""

    file: bytes
    number: int

    def __str__(self) -> str:
        return f"{self.file.decode()}:{self.number}"

    @staticmethod
    def of(text: str) -> "Place":
        """The place that `FILE:N` spells."""
        file, _, number = text.rpartition(":")
        return Place(file.encode(), int(number))


def _file_pattern(tool: str) -> re.Pattern[bytes]:
    """What finds the lines of an image that are configuration files of a tool."""
    folder = rb"sysusers" if tool == SYSUSERS else rb"tmpfiles"
    return re.compile(rb"^f (/(?:etc|run|usr/local/lib|usr/lib)/" + folder + rb"\.d/[^/\s]+\.conf)"
                      rb"( (?:\S+ ){7})(\S+)$", re.MULTILINE)


def _lines_of(payload: bytes) -> list[bytes]:
    return [] if payload == b"-" else binascii.a2b_base64(payload).split(b"\n")


class Configuration:
    """All configuration files of a tool in an image; lines can be left out, and the others keep their numbers."""

    def __init__(self, image: bytes, tool: str) -> None:
        self.image = image
        self._pattern = _file_pattern(tool)
        self._files = {found[1]: _lines_of(found[3]) for found in self._pattern.finditer(image)}
        self.lines = {Place(path, number): line for path, lines in self._files.items()
                      for number, line in enumerate(lines, 1)
                      if line.strip(BLANKS) and not line.lstrip(BLANKS).startswith(b"#")}  # no comments, no empty lines

    def image_with(self, keeps: Callable[[Place], bool], image: bytes | None = None) -> bytes:
        """The image, or another one, in which each of these files has only the lines that are kept."""
        def changed(found: re.Match[bytes]) -> bytes:
            lines = self._files.get(found[1], [])
            kept = [line if keeps(Place(found[1], number)) else b"" for number, line in enumerate(lines, 1)]
            payload = binascii.b2a_base64(b"\n".join(kept), newline=False) or b"-"
            return b"f " + found[1] + found[2] + payload
        return self._pattern.sub(changed, self.image if image is None else image)


def plain_path(text: bytes) -> bytes:
    """The bytes of a printed path."""
    path = unprinted(text)
    return text if path is None else path
