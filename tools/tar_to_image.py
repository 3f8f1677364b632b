#!/usr/bin/env python3
"""Makes a tree image of a root file system in a tar archive.

    tar_to_image.py ROOT.tar > IMAGE        tar_to_image.py < ROOT.tar > IMAGE
    tar_to_image.py --folder=FOLDER ROOT.tar

Directories, files, links, FIFOs and devices are taken over with owners as
numbers, modes, ACLs (SCHILY.acl.*, or in the kernel's form with its numbers
SCHILY.xattr.system.posix_acl_*, which counts more), extended attributes
(SCHILY.xattr.*) and stamps, cut to microseconds (mtime, atime, ctime). A stamp that the archive
lacks is the modify stamp. Hard links become files of their own. Attribute
letters are taken from the flags that bsdtar writes (SCHILY.fflags). Records of
this project: PROVISION.letters (attribute letters), PROVISION.birth (a stamp),
PROVISION.mask (the parts of an ACL whose mask is none of its own).

Contents over the inline limit stand in the image as a marker, SHA-256 and
length; image_to_tar.py puts them back from the same archive. The limit is 64
KiB, halved until all that stays inline has at most 8 MiB, since the program
reads images of at most 64 MiB. What the program reads itself (below a
tmpfiles.d or sysusers.d, account files, --inline) stays inline, whatever its
length.

With --folder the tree comes into a folder that is absent or empty, for runs
with --root: directories and files are real (FOLDER/tree), and FOLDER/manifest
has all else. No name may be other than UTF-8. A run takes at most 64 MiB in
files: if there are more, the bytes of large files stand in FOLDER/contents,
and image_to_tar.py --folder puts them back. Hard links of one file are hard
links in FOLDER/tree, too. Only the owner of the folder can read what is in it.

Each thing that an image cannot hold is named on standard error; with --strict
it is an error, and no image is written. Status: 0 done, 1 an error.
"""

import argparse
import binascii
import gc
import hashlib
import re
import struct
import sys
import tempfile
from collections.abc import Iterator
from dataclasses import dataclass

from hard_links import groups_of, join_names
from tar_stream import XATTR, Member, TarReader
from tree_folder import write_folder
from tree_image import (
    FACT_LETTERS, KIND_NAMES, LARGEST_ID, LARGEST_NUMBER, LARGEST_STAMP, LONGEST_FACT,
    LONGEST_IMAGE, LONGEST_NAME, LONGEST_TARGET, MAGIC, NODE_LETTERS, AclPart, Marker, Node, Notices, Trouble,
    attr_fault, digest_marker, head_lines, is_configuration, name_fault, node_line, parent_of, path_key,
    perm_bits, print_acl, printed_path,
)

INLINE_LIMIT = 65536
PIECE = 1 << 20
LEAST_LIMIT = 128  # shorter contents are no longer than a marker
MOST_INLINE = 8 << 20
NOBODY = 65534
KINDS = {b"0": "f", b"\0": "f", b"7": "f", b"S": "f", b"": "f", b"1": "f", b"2": "l", b"3": "c",
         b"4": "b", b"5": "d", b"D": "d", b"6": "p"}
LIBARCHIVE_XATTR = b"LIBARCHIVE.xattr."
SYSTEM_ACLS = {
    b"system.posix_acl_access": b"SCHILY.acl.access",
    b"system.posix_acl_default": b"SCHILY.acl.default",
}

# Attribute letters by the names that bsdtar writes.
FLAG_LETTERS = {
    b"sappnd": "a", b"sappend": "a", b"schg": "i", b"simmutable": "i", b"noatime": "A", b"compress": "c",
    b"nocow": "C", b"nodump": "d", b"dirsync": "D", b"journal-data": "j", b"journal": "j", b"projinherit": "P",
    b"securedeletion": "s", b"sync": "S", b"notail": "t", b"topdir": "T", b"undel": "u",
}

# Records that stand for what the members and the nodes have, or for nothing that is lost.
KNOWN_RECORDS = frozenset((
    b"path", b"linkpath", b"size", b"uid", b"gid", b"uname", b"gname", b"mtime", b"atime",
    b"ctime", b"charset", b"hdrcharset", b"comment", b"LIBARCHIVE.creationtime",
    b"PROVISION.letters", b"PROVISION.birth", b"PROVISION.mask",
    b"SCHILY.devmajor", b"SCHILY.devminor", b"SCHILY.dev", b"SCHILY.ino", b"SCHILY.nlink",
    b"SCHILY.realsize", b"SCHILY.fflags", b"SCHILY.acl.access", b"SCHILY.acl.default", b"SCHILY.filetype",
    b"RHT.security.selinux",
))


@dataclass(frozen=True, slots=True)
class Span:
    """Contents in the store: where they begin and how long they are."""

    start: int
    length: int


@dataclass(slots=True)
class Entry(Node):
    """A node with the texts of its ACL, which wait for the tree's own accounts.

    Hard links of one object have the same `number`, all other nodes one of their own.
    """

    number: int = 0
    access_text: bytes = b""
    default_text: bytes = b""
    computed_masks: bytes = b""


class Store:
    """The contents that stay inline, in a file that has no name."""

    def __init__(self) -> None:
        self._file = tempfile.TemporaryFile()
        self._end = 0

    def add_pieces(self, pieces: Iterator[bytes]) -> Span:
        start = self._end
        for piece in pieces:
            self._file.write(piece)
            self._end += len(piece)
        return Span(start, self._end - start)

    def add(self, data: bytes) -> Span:
        self._file.write(data)
        self._end += len(data)
        return Span(self._end - len(data), len(data))

    def close(self) -> None:
        self._file.close()

    def read(self, content: Span | Marker) -> bytes:
        """The bytes that stand in the image for contents."""
        if isinstance(content, Marker):
            return content.text()
        if not content.length:
            return b""
        self._file.seek(content.start)
        return self._file.read(content.length)

    def pieces(self, content: Span) -> Iterator[bytes]:
        """The bytes of contents, piece by piece."""
        for start in range(content.start, content.start + content.length, PIECE):
            yield self.read(Span(start, min(PIECE, content.start + content.length - start)))


class Builder:
    """Makes nodes of members; what a node cannot hold is named."""

    def __init__(self, notices: Notices, limit: int | None, inline: frozenset[bytes], whole: bool = False,
                 store: Store | None = None) -> None:
        self.notices = notices
        self.is_whole = whole  # contents of every length are kept as they are
        self.is_free = limit is None and not whole
        self.limit = INLINE_LIMIT if limit is None else limit
        self.inline = inline
        self.store = Store() if store is None else store
        self.nodes: dict[bytes, Entry] = {}
        self._objects = 0
        self._has_acls = False

    def warn(self, path: bytes, text: str) -> None:
        self.notices.warn(f"{printed_path(path)}: {text}")

    def add(self, reader: TarReader, member: Member) -> None:
        """Add the node of a member."""
        if member.kind == b"V":
            return
        path = self._path(member.name)
        if path is None:
            return
        kind = KINDS.get(member.kind)
        if kind == "f" and member.name.endswith(b"/") and member.kind in b"0\0":
            kind = "d"
        if kind is None:
            self.warn(path, f"an object of the tar type {member.kind.decode('latin-1')!r}, left out")
            return
        node = self._plain_node(kind, path, member)
        if not self._put_special(node, reader, member):
            return
        if member.records and member.kind != b"1":
            self._put_records(node, member)
        if path in self.nodes and not (path == b"/" or kind == self.nodes[path].kind == "d"):
            self.notices.note(f"{printed_path(path)}: it comes twice, the later one counts")
        self.nodes[path] = node

    def _path(self, name: bytes) -> bytes | None:
        """The path of a member's name."""
        names = [part for part in name.split(b"/") if part and part != b"."]
        path = b"/" + b"/".join(names)
        for part in names if len(path) > LONGEST_NAME or b".." in names or b"\0" in path else ():
            if fault := name_fault(part):
                self.warn(path, f"{fault}, left out")
                return None
        return path

    def _plain_node(self, kind: str, path: bytes, member: Member) -> Entry:
        modify = self._stamp(path, member.records.get(b"mtime"), member.seconds * 1000000)
        self._objects += 1
        node = Entry(kind, path, member.mode & 0o7777, self._owner(path, member.uid),
                     self._owner(path, member.gid), modify, modify, modify, modify, number=self._objects)
        if path == b"/" and kind != "d":
            raise Trouble(f"/: a {KIND_NAMES[kind]} as the root")
        return node

    def _owner(self, path: bytes, number: int) -> int:
        if 0 <= number <= LARGEST_ID:
            return number
        self.warn(path, f"the owner {number}, {NOBODY} taken")
        return NOBODY

    def _stamp(self, path: bytes, text: bytes | None, otherwise: int) -> int:
        """A stamp in microseconds, from a record of seconds where there is one."""
        value = otherwise if text is None else micros_of(text)
        if 0 <= value <= LARGEST_STAMP:
            return value
        self.warn(path, f"a stamp {'before 1970, 0' if value < 0 else 'too late, the last'} taken")
        return max(0, min(value, LARGEST_STAMP))

    def _put_special(self, node: Node, reader: TarReader, member: Member) -> bool:
        """What belongs to the kind of a node; whether it can be held."""
        if member.kind == b"1":
            return self._put_hard_link(node, member)
        if node.kind == "f":
            node.content = self._content(node, reader, member)
        elif node.kind == "l":
            node.mode = 0o777
            node.target = member.target
            if not 1 <= len(node.target) <= LONGEST_TARGET or b"\0" in node.target:
                self.warn(node.path, "a link with no target or one over 4095 bytes, left out")
                return False
        elif node.kind in "cb":
            node.major, node.minor = member.major, member.minor
            if not (0 <= node.major <= LARGEST_NUMBER and 0 <= node.minor <= LARGEST_NUMBER):
                self.warn(node.path, "a device number over 32 bits, left out")
                return False
        return True

    def _put_hard_link(self, node: Node, member: Member) -> bool:
        """Make a hard link an object of its own, as its first name is."""
        source = self._path(member.target)
        first = self.nodes.get(source) if source is not None else None
        if first is None or first.kind == "d":
            self.warn(node.path, "a hard link to nothing before it, left out")
            return False
        for name in Entry.__dataclass_fields__:
            if name != "path":
                setattr(node, name, getattr(first, name))
        self._say_hard_link(node.path, source)
        return True

    def _say_hard_link(self, path: bytes, first: bytes) -> None:
        self.notices.note(f"{printed_path(path)}: a hard link to {printed_path(first)}, taken as an object of its own")

    def _keeps(self, node: Node) -> bool:
        """Whether contents stay inline, whatever their length."""
        return is_configuration(node.path) or node.path in self.inline

    def _content(self, node: Node, reader: TarReader, member: Member) -> Span | Marker:
        """Take over contents, inline or by a marker."""
        if self.is_whole:
            return self.store.add_pieces(reader.contents(member))
        keeps = self._keeps(node)
        if member.size <= self.limit or keeps:
            data = reader.whole(member)
            if not data.startswith(MAGIC):
                return self.store.add(data)
            if keeps:
                raise Trouble(f"{printed_path(node.path)}: configuration that begins as the "
                              "marker of a large file does")
            return digest_marker(hashlib.sha256(data).hexdigest(), len(data))
        digest = hashlib.sha256()
        for piece in reader.contents(member):
            digest.update(piece)
        return digest_marker(digest.hexdigest(), member.size)

    def size(self, node: Entry) -> int:
        """The length of a file."""
        return node.content.length

    def pieces(self, node: Entry) -> Iterator[bytes]:
        """The bytes of a file, piece by piece."""
        return self.store.pieces(node.content)

    # Records

    def _put_records(self, node: Node, member: Member) -> None:
        records = member.records
        path = node.path
        if b"PROVISION.letters" in records:
            self._put_letters(node, records[b"PROVISION.letters"].decode("latin-1"))
        elif b"SCHILY.fflags" in records:
            self._put_flags(node, records[b"SCHILY.fflags"])
        node.access = self._stamp(path, records.get(b"atime"), node.access)
        node.change = self._stamp(path, records.get(b"ctime"), node.change)
        birth = records.get(b"PROVISION.birth", records.get(b"LIBARCHIVE.creationtime"))
        node.birth = self._stamp(path, birth, node.birth)
        acls = {}
        for key, value in records.items():
            if key.startswith(XATTR):
                name = key[len(XATTR):].replace(b"%3D", b"=").replace(b"%25", b"%")
                if name in SYSTEM_ACLS:
                    acls[SYSTEM_ACLS[name]] = binary_acl(value)
                else:
                    self._put_attr(node, name, value)
            elif key == b"RHT.security.selinux":
                self._put_attr(node, b"security.selinux", value)
            elif key.startswith(LIBARCHIVE_XATTR):
                name = unquoted(key[len(LIBARCHIVE_XATTR):])
                if XATTR + name not in records:
                    self._put_attr(node, name, binascii.a2b_base64(value + b"=="))
            elif key not in KNOWN_RECORDS and not key.startswith(b"GNU.sparse."):
                self.warn(path, f"the record {printed_path(key)}, left out")
        self._keep_acls(node, records | acls)  # texts may have names of the machine that packed them

    def _put_letters(self, node: Node, text: str) -> None:
        odd = sorted(set(text) - set(NODE_LETTERS))
        if node.kind not in "df":
            self.warn(node.path, f"letters on a {KIND_NAMES[node.kind]}, left out")
            return
        if odd:
            self.warn(node.path, f"the letters {''.join(odd)!r}, left out")
        node.letters = "".join(letter for letter in NODE_LETTERS if letter in text)

    def _put_flags(self, node: Node, text: bytes) -> None:
        """Letters by the names of file flags; one that no letter stands for is named."""
        flags = [flag for flag in text.split(b",") if flag]
        for flag in flags:
            if flag not in FLAG_LETTERS:
                self.warn(node.path, f"the flag {printed_path(flag)}, left out")
        if letters := "".join(FLAG_LETTERS.get(flag, "") for flag in flags):
            self._put_letters(node, letters)

    def _put_attr(self, node: Node, name: bytes, value: bytes) -> None:
        fault = "a link has none" if node.kind == "l" else attr_fault(name, value)
        if fault:
            self.warn(node.path, f"the attribute {printed_path(name)}, left out: {fault}")
        else:
            node.attrs[name] = value

    def _keep_acls(self, node: Entry, records: dict[bytes, bytes]) -> None:
        """Keep the texts of ACLs until the account files are known."""
        access = records.get(b"SCHILY.acl.access", b"")
        default = records.get(b"SCHILY.acl.default", b"")
        if not access and not default:
            return
        if node.kind == "l":
            self.warn(node.path, "an ACL on a link, left out")
            return
        if default and node.kind != "d":
            self.warn(node.path, f"the default ACL of a {KIND_NAMES[node.kind]}, left out")
            default = b""
        self._has_acls = True
        node.access_text, node.default_text = access, default
        node.computed_masks = records.get(b"PROVISION.mask", b"")

    # The whole tree

    def finish(self) -> list[Entry]:
        """All nodes in order, each below a directory."""
        if b"/" not in self.nodes:
            self.nodes[b"/"] = Entry("d", b"/")
        self._put_parents()
        if self._has_acls:
            self._put_acls()
        self._fit()
        return sorted(self.nodes.values(), key=lambda node: path_key(node.path))

    def _fit(self) -> None:
        """Halve the limit until what stays inline is short."""
        if not self.is_free:
            return
        nodes = [node for node in self.nodes.values()
                 if isinstance(node.content, Span) and node.content.length > LEAST_LIMIT and not self._keeps(node)]
        while self.limit > LEAST_LIMIT and MOST_INLINE < sum(
                node.content.length for node in nodes if node.content.length <= self.limit):
            self.limit //= 2
        for node in nodes:
            if node.content.length > self.limit:
                digest = hashlib.sha256(self.store.read(node.content)).hexdigest()
                node.content = digest_marker(digest, node.content.length)
        if self.limit < INLINE_LIMIT:
            self.notices.note(f"contents over {self.limit} bytes stand as markers, so that the image stays short")

    def _put_parents(self) -> None:
        """Make absent parents; leave out what stands below no directory."""
        for path in sorted(self.nodes, key=path_key):
            if path != b"/" and not self._has_parent(path):
                del self.nodes[path]

    def _has_parent(self, path: bytes) -> bool:
        """Whether the parent is a directory, after it is made where it is absent."""
        absent = []
        parent = parent_of(path)
        while parent not in self.nodes:
            absent.append(parent)
            parent = parent_of(parent)
        kind = self.nodes[parent].kind
        if kind != "d":
            self.warn(path, f"it stands below {printed_path(parent)}, a {KIND_NAMES[kind]}, left out")
            return False
        for made in reversed(absent):
            self.nodes[made] = Entry("d", made)
            self.warn(made, "absent above another object, made as a directory 0755 0 0")
        return True

    def _put_acls(self) -> None:
        users, groups = self._ids(b"/etc/passwd"), self._ids(b"/etc/group")
        for node in self.nodes.values():
            if node.access_text or node.default_text:
                self._put_acl(node, users, groups)

    def _put_acl(self, node: Entry, users: dict[bytes, int], groups: dict[bytes, int]) -> None:
        computed = node.computed_masks.split(b",")
        bits = node.mode
        access = AclPart(bits >> 6 & 7, bits >> 3 & 7, bits & 7)
        if node.access_text:
            self._read_part(node, access, node.access_text, (users, groups), b"access" in computed)
            node.mode = bits & 0o7000 | access.owner << 6 | access.group << 3 | access.other
        default = None
        if node.default_text:
            default = AclPart()
            self._read_part(node, default, node.default_text, (users, groups), b"default" in computed)
        node.acl = print_acl(access, default)

    def _read_part(self, node: Node, part: AclPart, text: bytes, ids: tuple, computed: bool) -> None:
        """Put the entries of a text into a part, with names of the tree's own accounts."""
        for entry in re.split(rb"[,\n]", text):
            fields = [field.strip() for field in entry.split(b"#", 1)[0].split(b":")]
            if fields == [b""]:
                continue
            if not self._put_entry(part, fields, *ids):
                self.warn(node.path, f"the ACL entry {printed_path(entry)}, left out")
        if computed and part.mask == part.union():
            part.mask = None

    @staticmethod
    def _put_entry(part: AclPart, fields: list[bytes], users, groups) -> bool:
        """Put one entry into a part; whether it is one."""
        if len(fields) < 3 or fields[2].strip(b"rwx-"):
            return False
        tag, name, bits = fields[0][:1], fields[1], perm_bits(fields[2].decode())
        if tag in b"mo" and not name:
            setattr(part, "mask" if tag == b"m" else "other", bits)
        elif tag in b"ug" and not name:
            setattr(part, "owner" if tag == b"u" else "group", bits)
        elif tag in b"ug":
            number = id_of(fields, users if tag == b"u" else groups)
            if number is None:
                return False
            (part.users if tag == b"u" else part.groups)[number] = bits
        else:
            return False
        return True

    def _ids(self, path: bytes) -> dict[bytes, int]:
        """Names and numbers of an account file; of two with one name the first counts."""
        ids: dict[bytes, int] = {}
        for line in self.file_bytes(path).split(b"\n"):
            fields = line.split(b":")
            if len(fields) > 2 and (number := id_number(fields[2])) is not None:
                ids.setdefault(fields[0], number)
        return ids

    def file_bytes(self, path: bytes) -> bytes:
        """The bytes of a file of the tree; none where it is absent or large."""
        node = self._resolve(path)
        if node is None or node.kind != "f" or isinstance(node.content, Marker):
            return b""
        return self.store.read(node.content)

    def _resolve(self, path: bytes) -> Node | None:
        """The object at a path, through links, inside the tree."""
        names, done = path.split(b"/")[1:], b""
        for _ in range(200):
            if not names:
                return self.nodes.get(done or b"/")
            name = names.pop(0)
            if name in (b"", b"."):
                continue
            if name == b"..":
                done = done[: done.rindex(b"/")] if done else b""
                continue
            node = self.nodes.get(done + b"/" + name)
            if node is not None and node.kind == "l":
                names = node.target.split(b"/") + names
                done = b"" if node.target.startswith(b"/") else done
                continue
            done += b"/" + name
        return None


def micros_of(text: bytes) -> int:
    """Microseconds of a record of seconds; later digits are cut."""
    whole, _, rest = text.partition(b".")
    if not re.fullmatch(rb"-?[0-9]{1,20}", whole) or rest and not rest.isdigit():
        raise Trouble(f"bad tar: the stamp {printed_path(text[:40])}")
    micros = int((rest + b"000000")[:6])
    seconds = int(whole)
    return seconds * 1000000 + (-micros if whole.startswith(b"-") else micros)


def unquoted(name: bytes) -> bytes:
    """A name without %HH escapes."""
    return re.sub(rb"%([0-9A-Fa-f]{2})", lambda found: bytes([int(found[1], 16)]), name)


def id_number(text: bytes) -> int | None:
    """The number that a text spells, where it is one of a user or a group."""
    number = int(text) if text.isdigit() and len(text) <= 20 else LARGEST_ID + 1
    return number if number <= LARGEST_ID else None


def id_of(fields: list[bytes], ids: dict[bytes, int]) -> int | None:
    """The number of an entry: its name, that of star's fourth field, or the tree's own."""
    name = fields[1]
    for text in (name, fields[3] if len(fields) > 3 else b""):
        if text.isdigit():
            return id_number(text)
    return ids.get(name)


def binary_acl(value: bytes) -> bytes:
    """The text of an ACL as the kernel stores it."""
    tags = {1: b"u:", 2: b"u:%d", 4: b"g:", 8: b"g:%d", 16: b"m:", 32: b"o:"}
    entries = []
    if len(value) % 8 != 4 or value[:4] != b"\2\0\0\0":
        raise Trouble("bad tar: a damaged ACL")
    for tag, perm, number in struct.iter_unpack("<HHI", value[4:]):
        start = tags.get(tag, b"?:")
        start = start % number if b"%" in start else start
        bits = (b"r" if perm & 4 else b"-") + (b"w" if perm & 2 else b"-")
        entries.append(start + b":" + bits + (b"x" if perm & 1 else b"-"))
    return b",".join(entries)


# Facts

OS_RELEASE = {
    b"IMAGE_VERSION": "A", b"BUILD_ID": "B", b"IMAGE_ID": "M", b"ID": "o", b"VERSION_ID": "w",
    b"VARIANT_ID": "W",
}


def os_release_facts(text: bytes) -> dict[str, bytes]:
    """The facts that os-release(5) gives."""
    facts = {}
    for line in text.split(b"\n"):
        key, equal, value = line.strip().partition(b"=")
        if equal and key in OS_RELEASE:
            facts[OS_RELEASE[key]] = shell_value(value)
    return facts


def shell_value(text: bytes) -> bytes:
    """A value of os-release without its quotes and backslashes."""
    text = text.strip()
    if text[:1] == b"'" and text[-1:] == b"'":
        return text[1:-1]
    if text[:1] == b'"' and text[-1:] == b'"':
        text = text[1:-1]
    return re.sub(rb"\\(.)", rb"\1", text)


def tree_facts(builder: Builder) -> dict[str, bytes]:
    """The facts that stand in the tree itself."""
    release = builder.file_bytes(b"/etc/os-release") or builder.file_bytes(b"/usr/lib/os-release")
    facts = os_release_facts(release)
    machine = builder.file_bytes(b"/etc/machine-id").strip()
    if re.fullmatch(rb"[0-9a-f]{32}", machine):
        facts["m"] = machine
    for line in builder.file_bytes(b"/etc/hostname").split(b"\n"):
        name = line.strip()
        if name and not name.startswith(b"#"):
            facts["H"], facts["l"] = name, name.split(b".")[0]
            break
    return facts


def all_facts(builder: Builder, given: dict[str, bytes]) -> dict[str, bytes]:
    """The facts of the tree and those that are given, which count; an empty one is none."""
    facts = {letter: value for letter, value in tree_facts(builder).items() if value}
    for letter, value in list(facts.items()):
        if len(value) > LONGEST_FACT:
            builder.notices.warn(f"fact {letter}: over 255 bytes, left out")
            del facts[letter]
    facts.update(given)
    return {letter: value for letter, value in facts.items() if value}


def fact_option(text: str) -> tuple[str, bytes]:
    """LETTER=VALUE of an option."""
    letter, equal, value = text.partition("=")
    data = value.encode("utf-8", "surrogateescape")
    if not equal or len(letter) != 1 or letter not in FACT_LETTERS or len(data) > LONGEST_FACT:
        raise argparse.ArgumentTypeError(f"LETTER=VALUE with one of {FACT_LETTERS} is needed")
    return letter, data


def limit_option(text: str) -> int:
    if not text.isdecimal():
        raise argparse.ArgumentTypeError("a number of bytes is needed")
    return int(text)


def path_option(text: str) -> bytes:
    data = text.encode("utf-8", "surrogateescape")
    if not data.startswith(b"/"):
        raise argparse.ArgumentTypeError("a path that begins with / is needed")
    return data


# The tool

def parse_words(words: list[str]) -> argparse.Namespace:
    parser = argparse.ArgumentParser(
        prog="tar_to_image", description="Makes a tree image of a root file system in a tar archive.")
    parser.add_argument("tar", nargs="?", metavar="ROOT.tar", help="the archive (default: standard input)")
    parser.add_argument("--folder", metavar="FOLDER",
                        help="write the tree into this folder, which is absent or empty, and no image")
    parser.add_argument("--strict", action="store_true",
                        help="what an image cannot hold is an error, and no image is written")
    parser.add_argument("--fact", action="append", type=fact_option, default=[],
                        metavar="LETTER=VALUE",
                        help="the value of a specifier, as b=BOOTID; an empty value removes the one that the tree gives")
    parser.add_argument("--inline-limit", type=limit_option, default=None, metavar="BYTES",
                        help="contents over this length are replaced by a marker (65536, halved until all that "
                             "stays inline has at most 8 MiB)")
    parser.add_argument("--inline", action="append", type=path_option, default=[], metavar="PATH",
                        help="a file whose contents stay in the image, whatever its length")
    options = parser.parse_args(words)
    if options.folder is not None and (options.inline or options.inline_limit is not None):
        parser.error("--folder takes neither --inline nor --inline-limit: all contents are files there")
    return options


def read_tar(file, builder: Builder, by_seek: bool = False) -> list[Entry]:
    """The nodes of an archive; `by_seek` goes over contents that the builder does not read."""
    reader = TarReader(file)
    for member in reader.members(by_seek):
        builder.add(reader, member)
    if not reader.ended:
        builder.notices.warn("the archive has no end; it may be cut off")
    elif reader.drain():
        builder.notices.warn("bytes after the end of the archive, left out")
    return builder.finish()


def image_pieces(builder: Builder, nodes: list[Node], facts: dict[str, bytes]) -> Iterator[bytes]:
    """The lines of the image."""
    yield head_lines(facts)
    read = builder.store.read
    for node in nodes:
        yield node_line(node, read(node.content) if node.kind == "f" else b"")
    yield b"end\n"


def run(words: list[str]) -> int:
    options = parse_words(words)
    notices = Notices("tar_to_image", options.strict)
    builder = Builder(notices, options.inline_limit, frozenset(options.inline), options.folder is not None)
    if options.tar is None:
        nodes = read_tar(sys.stdin.buffer, builder)
    else:
        with open(options.tar, "rb") as file:
            nodes = read_tar(file, builder)
    facts = all_facts(builder, dict(options.fact))
    if notices.failed():
        return 1
    if options.folder is not None:
        first_names = join_names(groups_of((node.number, node) for node in nodes if node.kind == "f"))
        write_folder(options.folder, facts, nodes, builder, notices, first_names)
        return 1 if notices.failed() else 0
    return write_image(builder, nodes, facts, notices)


def write_image(builder: Builder, nodes: list[Node], facts: dict[str, bytes], notices: Notices) -> int:
    """Write the image to standard output, and give the status."""
    length = 0
    for piece in image_pieces(builder, nodes, facts):
        length += len(piece)
        sys.stdout.buffer.write(piece)
    sys.stdout.buffer.flush()
    if length > LONGEST_IMAGE:
        notices.warn(f"an image of {length} bytes; the program reads {LONGEST_IMAGE}")
    return 1 if notices.failed() else 0


def main() -> int:
    gc.disable()  # there are no cycles, and many nodes
    try:
        return run(sys.argv[1:])
    except (Trouble, OSError, binascii.Error) as trouble:
        print(f"tar_to_image: error: {trouble}", file=sys.stderr)
        return 1


if __name__ == "__main__":
    sys.exit(main())
