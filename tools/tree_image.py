"""The tree image: one node, its line, and the lines around it, both ways.

A tree image is one text that holds facts and a whole file tree:

    tree-image 2
    fact LETTER VALUE
    KIND PATH MODE UID GID STAMPS ACL ATTRS LETTERS PAYLOAD
    end

Nodes come in order of paths, compared name by name and by bytes, a prefix
first. Names, targets, values and attributes are printed bytes: each byte from
0x21 to 0x7e but a backslash stands for itself, every other one is \\xHH.
Version 1, without the columns ATTRS and LETTERS, is read as well.
"""

import binascii
import re
import sys
from collections.abc import Callable, Iterable, Iterator
from dataclasses import dataclass, field

FACT_LETTERS = "ABHMWablmovw"
NODE_LETTERS = "ACDPSTacdeijstu"
LARGEST_ID = 4294967294
LARGEST_NUMBER = 2**32 - 1
LARGEST_STAMP = 2**64 - 1
LONGEST_NAME = 255
LONGEST_TARGET = 4095
LONGEST_FACT = 255
LONGEST_VALUE = 65536
LONGEST_IMAGE = 67108864

KIND_NAMES = {
    "d": "directory",
    "f": "file",
    "l": "link",
    "p": "fifo",
    "c": "character device",
    "b": "block device",
}


class Trouble(Exception):
    """What ends a tool with status 1."""


class Notices:
    """What is said on standard error; with `strict` a warning is an error."""

    def __init__(self, tool: str, strict: bool = False) -> None:
        self.tool = tool
        self.strict = strict
        self.warnings = 0

    def say(self, word: str, text: str) -> None:
        print(f"{self.tool}: {word}: {text}", file=sys.stderr)

    def note(self, text: str) -> None:
        self.say("note", text)

    def warn(self, text: str) -> None:
        self.warnings += 1
        self.say("error" if self.strict else "warning", text)

    def failed(self) -> bool:
        return self.strict and self.warnings > 0


# Printed bytes

_HIDDEN = re.compile(rb"[^!-\[\]-~]")
_HIDDEN_IN_ATTR = re.compile(rb"[^!-+\--<>-\[\]-~]")
_PRINTED = re.compile(rb"(?:[!-\[\]-~]|\\x[0-9a-f]{2})*\Z")
_ESCAPE = re.compile(rb"\\x(..)")


def _hide(found: re.Match[bytes]) -> bytes:
    return b"\\x%02x" % found[0][0]


def printed(data: bytes) -> bytes:
    """The printed bytes of a name, a target or a value."""
    return _HIDDEN.sub(_hide, data)


def printed_in_attr(data: bytes) -> bytes:
    """The printed bytes of a name or a value of an attribute."""
    return _HIDDEN_IN_ATTR.sub(_hide, data)


def printed_path(path: bytes) -> str:
    """A path as it is printed in messages and images."""
    return printed(path).decode()


def unprinted(text: bytes, again=printed) -> bytes | None:
    """What printed bytes stand for; None for any other spelling."""
    if b"\\" not in text:
        return text if again(text) == text else None
    if not _PRINTED.match(text):
        return None
    data = _ESCAPE.sub(lambda found: bytes([int(found[1], 16)]), text)
    return data if again(data) == text else None


# Access control lists

_PERM = re.compile(r"[r-][w-][x-]\Z")
_NUMBER = re.compile(r"(?:0|[1-9][0-9]*)\Z")


def perm_text(bits: int) -> str:
    """Three characters for three permission bits."""
    return ("r" if bits & 4 else "-") + ("w" if bits & 2 else "-") + ("x" if bits & 1 else "-")


def perm_bits(text: str) -> int:
    """The three permission bits of a text such as `r-x`."""
    return (4 if "r" in text else 0) | (2 if "w" in text else 0) | (1 if "x" in text else 0)


@dataclass(slots=True)
class AclPart:
    """The access or the default part of an ACL; `mask` where it is explicit."""

    owner: int = 0
    group: int = 0
    other: int = 0
    mask: int | None = None
    users: dict[int, int] = field(default_factory=dict)
    groups: dict[int, int] = field(default_factory=dict)

    def union(self) -> int:
        """The mask that counts where none is explicit."""
        bits = self.group
        for perm in (*self.users.values(), *self.groups.values()):
            bits |= perm
        return bits

    def is_plain(self) -> bool:
        """Whether the base entries are all."""
        return self.mask is None and not self.users and not self.groups


def print_acl(access: AclPart, default: AclPart | None) -> str:
    """The column of an ACL; the base entries of the access part are in the mode."""
    entries = [f"u:{number}:{perm_text(perm)}" for number, perm in sorted(access.users.items())]
    entries += [f"g:{number}:{perm_text(perm)}" for number, perm in sorted(access.groups.items())]
    if access.mask is not None:
        entries.append(f"m::{perm_text(access.mask)}")
    if default is not None:
        entries.append(f"d:u::{perm_text(default.owner)}")
        entries += [f"d:u:{n}:{perm_text(perm)}" for n, perm in sorted(default.users.items())]
        entries.append(f"d:g::{perm_text(default.group)}")
        entries += [f"d:g:{n}:{perm_text(perm)}" for n, perm in sorted(default.groups.items())]
        if default.mask is not None:
            entries.append(f"d:m::{perm_text(default.mask)}")
        entries.append(f"d:o::{perm_text(default.other)}")
    return ",".join(entries) or "-"


def read_acl(text: str, mode: int) -> tuple[AclPart, AclPart | None]:
    """The two parts that a column spells, with the base entries of a mode."""
    access = AclPart(owner=mode >> 6 & 7, group=mode >> 3 & 7, other=mode & 7)
    default: AclPart | None = None
    for entry in text.split(",") if text != "-" else ():
        part = access
        if entry.startswith("d:"):
            default = part = default or AclPart()
            entry = entry[2:]
        _put_entry(part, entry, part is default)
    if print_acl(access, default) != text:
        raise ValueError(text)
    return access, default


def _put_entry(part: AclPart, entry: str, base: bool) -> None:
    """Put one entry of a column into a part; base entries where they stand there."""
    tag, name, perm = entry.split(":")
    if not _PERM.match(perm):
        raise ValueError(entry)
    bits = perm_bits(perm)
    if name:
        number = int(name) if _NUMBER.match(name) else LARGEST_ID + 1
        if number > LARGEST_ID:
            raise ValueError(entry)
        {"u": part.users, "g": part.groups}[tag][number] = bits
    elif tag == "m":
        part.mask = bits
    elif base and tag in "ugo":
        setattr(part, {"u": "owner", "g": "group", "o": "other"}[tag], bits)
    else:
        raise ValueError(entry)


# Nodes

@dataclass(slots=True)
class Node:
    """One object of a tree; `content` is set by whoever reads or holds the bytes."""

    kind: str
    path: bytes
    mode: int = 0o755
    uid: int = 0
    gid: int = 0
    access: int = 0
    birth: int = 0
    change: int = 0
    modify: int = 0
    acl: str = "-"
    attrs: dict[bytes, bytes] = field(default_factory=dict)
    letters: str = ""
    target: bytes = b""
    major: int = 0
    minor: int = 0
    content: object = None


def path_key(path: bytes) -> bytes:
    """What sorts as paths do: name by name, by bytes, a prefix first."""
    return b"" if path == b"/" else path.replace(b"/", b"\0")


def parent_of(path: bytes) -> bytes:
    """The path of the directory that a path stands in."""
    return path[: path.rindex(b"/")] or b"/"


def name_fault(name: bytes) -> str | None:
    """Why an image cannot hold a name."""
    if name in (b"", b".", b".."):
        return f"the name {name.decode()!r} is none"
    if len(name) > LONGEST_NAME:
        return "a name over 255 bytes"
    if b"\0" in name or b"/" in name:
        return "a name with a NUL or a slash"
    return None


def attr_fault(name: bytes, value: bytes) -> str | None:
    """Why an image cannot hold an extended attribute."""
    if not 1 <= len(name) <= LONGEST_NAME or b"\0" in name:
        return "its name has no byte, over 255 bytes or a NUL"
    if b"." not in name[1:-1]:
        return "its name has no namespace"
    if name.startswith(b"system."):
        return "system attributes stand in other columns"
    if len(value) > LONGEST_VALUE:
        return "its value has over 65536 bytes"
    return None


def attrs_text(attrs: dict[bytes, bytes]) -> bytes:
    """The column of extended attributes."""
    if not attrs:
        return b"-"
    return b",".join(
        printed_in_attr(name) + b"=" + printed_in_attr(attrs[name]) for name in sorted(attrs)
    )


def read_attrs(text: bytes) -> dict[bytes, bytes]:
    """The extended attributes that a column spells."""
    attrs: dict[bytes, bytes] = {}
    for entry in text.split(b",") if text != b"-" else ():
        printed_name, printed_value = entry.split(b"=")
        name = unprinted(printed_name, printed_in_attr)
        value = unprinted(printed_value, printed_in_attr)
        if name is None or value is None or attr_fault(name, value):
            raise ValueError(entry)
        attrs[name] = value
    if attrs_text(attrs) != text:
        raise ValueError(text)
    return attrs


def node_line(node: Node, content: bytes = b"") -> bytes:
    """The line of a node, with the bytes of a file."""
    if node.kind == "f":
        payload = binascii.b2a_base64(content, newline=False) if content else b"-"
    elif node.kind == "l":
        payload = printed(node.target)
    elif node.kind in "cb":
        payload = b"%d:%d" % (node.major, node.minor)
    else:
        payload = b"-"
    return b"%s %s %04o %d %d %d,%d,%d,%d %s %s %s %s\n" % (
        node.kind.encode(), printed(node.path), node.mode, node.uid, node.gid,
        node.access, node.birth, node.change, node.modify,
        node.acl.encode(), attrs_text(node.attrs) if node.attrs else b"-",
        node.letters.encode() or b"-", payload,
    )


def head_lines(facts: dict[str, bytes]) -> bytes:
    """The header and the lines of facts."""
    lines = [b"tree-image 2\n"]
    lines += [b"fact %s %s\n" % (x.encode(), printed(facts[x])) for x in sorted(facts)]
    return b"".join(lines)


# Reading

_N = rb"(0|[1-9][0-9]*)"
_NODE = re.compile(
    rb"([dflpcb]) (/\S*) ([0-7]{4}) " + _N + rb" " + _N + rb" "
    + _N + rb"," + _N + rb"," + _N + rb"," + _N
    + rb" (\S+)(?: (\S+) (\S+))? (\S+)\n\Z"
)
_PLAIN_PATH = re.compile(rb"(?:/(?!\.{1,2}(?:/|\Z))[!-.0-\[\]-~]{1,255})+\Z")
_DEVICE = re.compile(_N + rb":" + _N + rb"\Z")
_FACT = re.compile(rb"fact ([A-Za-z]) (\S+)\n\Z")


class ImageReader:
    """Reads an image line by line: messages, which `say` is given, and `facts`; then `nodes`."""

    def __init__(self, lines: Iterable[bytes], say: Callable[[str], None] | None = None) -> None:
        self._lines = iter(lines)
        self._number = 0
        self._line = b""
        self._version = 2
        self.facts: dict[str, bytes] = {}
        self._read_head(say or (lambda message: None))

    def _fault(self, name: str) -> Trouble:
        return Trouble(f"bad image at line {self._number}: {name}")

    def _next(self) -> bytes:
        self._number += 1
        self._line = next(self._lines, b"")
        if not self._line.endswith(b"\n"):
            raise self._fault("Truncated")
        return self._line

    def _read_head(self, say: Callable[[str], None]) -> None:
        while self._next().startswith(b": "):
            say(self._line[:-1].decode(errors="backslashreplace"))
        if self._line not in (b"tree-image 1\n", b"tree-image 2\n"):
            raise self._fault("BadHeader")
        self._version = int(self._line[11:12])
        while self._next().startswith(b"fact "):
            self._read_fact()

    def _read_fact(self) -> None:
        found = _FACT.match(self._line)
        value = unprinted(found[2]) if found else None
        if not found or value is None or not 1 <= len(value) <= LONGEST_FACT:
            raise self._fault("BadLine")
        letter = found[1].decode()
        if letter not in FACT_LETTERS:
            raise self._fault("BadLine")
        if self.facts and letter <= max(self.facts):
            raise self._fault("OutOfOrder")
        self.facts[letter] = value

    def nodes(self) -> Iterator[Node]:
        """The nodes in order; the content of a file is its bytes."""
        directories: set[bytes] = set()
        last = None
        while self._line != b"end\n":
            node = self._read_node()
            key = path_key(node.path)
            if last is not None and key <= last:
                raise self._fault("OutOfOrder")
            self._check_parent(node, directories)
            last = key
            if node.kind == "d":
                directories.add(node.path)
            yield node
            self._next()
        if not directories:
            raise self._fault("NoParent")
        self._check_end()

    def _check_parent(self, node: Node, directories: set[bytes]) -> None:
        if node.path == b"/":
            fine = node.kind == "d"
        else:
            fine = parent_of(node.path) in directories
        if not fine:
            raise self._fault("NoParent")

    def _check_end(self) -> None:
        rest = next(self._lines, b"")
        if rest:
            self._number += 1
            raise self._fault("BadLine")

    def _read_node(self) -> Node:
        found = _NODE.match(self._line)
        if not found or (found[11] is None) != (self._version == 1):
            raise self._fault("BadLine")
        try:
            return _node_of(*found.groups())
        except (ValueError, KeyError):
            raise self._fault("BadLine") from None


def _node_of(kind, path, mode, uid, gid, access, birth, change, modify, acl, attrs, letters,
             payload) -> Node:
    node = Node(
        kind.decode(), _read_path(path), int(mode, 8), int(uid), int(gid),
        int(access), int(birth), int(change), int(modify), acl.decode(),
    )
    if attrs is not None and attrs != b"-":
        node.attrs = read_attrs(attrs)
    if letters is not None and letters != b"-":
        node.letters = letters.decode()
    _check_node(node)
    _put_payload(node, payload)
    return node


def _check_node(node: Node) -> None:
    """Refuse what no node can have."""
    letters = node.letters
    if max(node.uid, node.gid) > LARGEST_ID:
        raise ValueError("owner")
    if max(node.access, node.birth, node.change, node.modify) > LARGEST_STAMP:
        raise ValueError("stamp")
    if letters and "".join(x for x in NODE_LETTERS if x in letters) != letters:
        raise ValueError("letters")
    if letters and node.kind not in "df":
        raise ValueError("letters")
    if node.kind == "l" and (node.mode != 0o777 or node.acl != "-" or node.attrs):
        raise ValueError("link")
    if node.acl != "-" and read_acl(node.acl, node.mode)[1] is not None and node.kind != "d":
        raise ValueError("default part")


def _read_path(text: bytes) -> bytes:
    """The path that a text prints."""
    if text == b"/" or _PLAIN_PATH.match(text):
        return text
    names = [unprinted(name) for name in text.split(b"/")[1:]]
    if any(name is None or name_fault(name) for name in names):
        raise ValueError(text)
    return b"/" + b"/".join(names)


def _put_payload(node: Node, payload: bytes) -> None:
    """Read the last column into a node."""
    if node.kind == "f":
        node.content = b"" if payload == b"-" else binascii.a2b_base64(payload, strict_mode=True)
        if payload != b"-" and not node.content:
            raise ValueError(payload)
    elif node.kind == "l":
        target = unprinted(payload)
        if target is None or not 1 <= len(target) <= LONGEST_TARGET or b"\0" in target:
            raise ValueError(payload)
        node.target = target
    elif node.kind in "cb":
        found = _DEVICE.match(payload)
        node.major, node.minor = int(found[1] if found else ""), int(found[2])
        if max(node.major, node.minor) > LARGEST_NUMBER:
            raise ValueError(payload)
    elif payload != b"-":
        raise ValueError(payload)


# Markers: what stands in an image for the contents of a large file

MAGIC = b"provision-large-file "
_MARKER = re.compile(MAGIC + rb"(sha256 [0-9a-f]{64}|number (?:0|[1-9][0-9]*)) length (0|[1-9][0-9]*)\n")


@dataclass(frozen=True, slots=True)
class Marker:
    """Contents that stand in another place, by a name and their length.

    The name is `sha256 DIGEST` wherever an image leaves the program that made it.
    `number N` names contents within one program alone.
    """

    name: str
    length: int

    def text(self) -> bytes:
        return MAGIC + f"{self.name} length {self.length}\n".encode()


def digest_marker(digest: str, length: int) -> Marker:
    """The marker of contents with this SHA-256."""
    return Marker(f"sha256 {digest}", length)


def read_marker(content: bytes) -> tuple[Marker, bytes] | None:
    """The marker that contents begin with, and what a run has added to them.

    Files that begin with the magic are never put into an image as they are,
    so contents that begin with it are a marker; with text behind it where a
    line has added to the file. None for other contents.
    """
    if not content.startswith(MAGIC):
        return None
    found = _MARKER.match(content)
    if not found:
        raise ValueError("contents that begin as a marker does and are none")
    return Marker(found[1].decode(), int(found[2])), content[found.end():]


_ACCOUNT_FILES = (b"passwd", b"group", b"shadow", b"gshadow")


def is_configuration(path: bytes) -> bool:
    """Whether the program may read a file: its contents stay in the image."""
    names = path.split(b"/")
    if b"tmpfiles.d" in names[:-1] or b"sysusers.d" in names[:-1]:
        return True
    return names[-1] in _ACCOUNT_FILES and names[-2:-1] == [b"etc"]
