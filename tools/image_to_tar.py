#!/usr/bin/env python3
"""Makes a tar archive of a tree image, such as a run has printed.

    image_to_tar.py [ROOT.tar] < OUTPUT > NEW.tar
    image_to_tar.py --folder=FOLDER > NEW.tar

ROOT.tar is the archive that tar_to_image.py has read. The contents of large
files come from it, by their SHA-256 and their length, wherever the run has
moved or copied them; bytes that a line has added stand behind them. It is a
file, since it is read at many places. Messages before the image (lines that
begin with `: `) go to standard error. Facts are of a run and not of a tree,
so they do not come into the archive.

With --folder the tree is that of a folder such as runs with --root change:
FOLDER/tree with what FOLDER/manifest says of it.

The archive is ustar with pax records where they are needed; those of this
project are named in tar_to_image.py. GNU tar unpacks it whole by

    tar --numeric-owner --acls --xattrs --xattrs-include='*' \\
        --warning=no-unknown-keyword -xpf NEW.tar

Status: 0 done, 1 an error, after which the archive is not whole.
"""

import argparse
import gc
import hashlib
import struct
import sys
from collections.abc import Iterator
from dataclasses import dataclass
from typing import Protocol

from hard_links import join_names
from tar_stream import XATTR, Member, TarReader, archive_end, member_head, padding
from tree_folder import FolderReader
from tree_image import (
    AclPart, ImageReader, Marker, Node, Trouble, digest_marker, perm_text, printed_path, read_acl, read_marker,
)

@dataclass(frozen=True, slots=True)
class Form:
    """Which records a member has beside those that each archive needs.

    `times`: the access, change and birth timestamps that differ from the modify timestamp.
    `acl_attributes`: ACLs also as extended attributes in the kernel's form, which container tools read.
    """

    times: bool = True
    acl_attributes: bool = False


WHOLE = Form()
TYPES = {"d": b"5", "f": b"0", "l": b"2", "p": b"6", "c": b"3", "b": b"4"}


class OldContents:
    """The contents of an old archive, by their SHA-256 and length."""

    def __init__(self, file) -> None:
        self._reader = TarReader(file)
        self._by_size: dict[int, list[Member]] = {}
        self._found: dict[Marker, Member] = {}
        for member in self._reader.members(by_seek=True):
            if member.kind in b"0\x007S":
                self._by_size.setdefault(member.size, []).append(member)

    def find(self, marker: Marker) -> Member | None:
        """The member with these contents; members of its length are read once."""
        if marker not in self._found:
            for member in self._by_size.pop(marker.length, ()):
                digest = hashlib.sha256()
                for piece in self.pieces(member):
                    digest.update(piece)
                self._found.setdefault(digest_marker(digest.hexdigest(), member.size), member)
        return self._found.get(marker)

    def pieces(self, member: Member) -> Iterator[bytes]:
        """The contents of a member."""
        self._reader.seek(member.offset)
        return self._reader.contents(member)


def seconds_text(micros: int) -> bytes:
    """A stamp as a record gives it: seconds with a fraction where there is one."""
    seconds, rest = divmod(micros, 1000000)
    return f"{seconds}.{rest:06}".rstrip("0").encode() if rest else b"%d" % seconds


def stamp_records(node: Node, form: Form) -> dict[bytes, bytes]:
    """Records for the stamps that the header has no room for."""
    records = {}
    seconds, rest = divmod(node.modify, 1000000)
    if rest or seconds >= 8**11:
        records[b"mtime"] = seconds_text(node.modify)
    if not form.times:
        return records
    for key, value in ((b"atime", node.access), (b"ctime", node.change), (b"PROVISION.birth", node.birth)):
        if value != node.modify:
            records[key] = seconds_text(value)
    return records


def acl_text(part: AclPart) -> bytes:
    """The text of a part, with a mask wherever acl(5) wants one."""
    entries = [f"user::{perm_text(part.owner)}"]
    entries += [f"user:{number}:{perm_text(perm)}" for number, perm in sorted(part.users.items())]
    entries.append(f"group::{perm_text(part.group)}")
    entries += [f"group:{number}:{perm_text(perm)}" for number, perm in sorted(part.groups.items())]
    if not part.is_plain():
        mask = part.union() if part.mask is None else part.mask
        entries.append(f"mask::{perm_text(mask)}")
    entries.append(f"other::{perm_text(part.other)}")
    return ",".join(entries).encode()


def acl_value(part: AclPart) -> bytes:
    """A part as the kernel stores it, with a mask wherever acl(5) wants one."""
    nobody = 0xFFFFFFFF
    entries = [(1, part.owner, nobody)]
    entries += [(2, perm, number) for number, perm in sorted(part.users.items())]
    entries.append((4, part.group, nobody))
    entries += [(8, perm, number) for number, perm in sorted(part.groups.items())]
    if not part.is_plain():
        entries.append((16, part.union() if part.mask is None else part.mask, nobody))
    entries.append((32, part.other, nobody))
    return struct.pack("<I", 2) + b"".join(struct.pack("<HHI", *entry) for entry in entries)


def put_acl(node: Node, member: Member, form: Form) -> None:
    """The records of an ACL; the group bits of the mode show the mask, as in a file system."""
    access, default = read_acl(node.acl, node.mode)
    computed = []
    if form.acl_attributes:
        if not access.is_plain():
            member.records[XATTR + b"system.posix_acl_access"] = acl_value(access)
        if default is not None:
            member.records[XATTR + b"system.posix_acl_default"] = acl_value(default)
    if not access.is_plain():
        mask = access.union() if access.mask is None else access.mask
        member.mode = node.mode & 0o7707 | mask << 3
        member.records[b"SCHILY.acl.access"] = acl_text(access)
        if access.mask is None:
            computed.append(b"access")
    if default is not None:
        member.records[b"SCHILY.acl.default"] = acl_text(default)
        if default.mask is None and not default.is_plain():
            computed.append(b"default")
    if computed:
        member.records[b"PROVISION.mask"] = b",".join(computed)


def member_of(node: Node, size: int, form: Form = WHOLE) -> Member:
    """The member of a node whose contents have this size."""
    name = b"." + node.path + (b"/" if node.kind == "d" and node.path != b"/" else b"")
    member = Member(
        name, TYPES[node.kind], node.mode, node.uid, node.gid, size, node.modify // 1000000,
        node.target, node.major, node.minor, stamp_records(node, form),
    )
    if node.acl != "-":
        put_acl(node, member, form)
    for key, value in node.attrs.items():
        key = key.replace(b"%", b"%25").replace(b"=", b"%3D")
        member.records[XATTR + key] = value
    if node.letters:
        member.records[b"PROVISION.letters"] = node.letters.encode()
    return member


class Contents(Protocol):
    """Where the contents stand that an image has markers for."""

    def find(self, marker: Marker) -> object | None:
        """What `pieces` takes for the contents of a marker; None if they are not there."""

    def pieces(self, found) -> Iterator[bytes]:
        """The contents, piece by piece."""


class Writer:
    """Writes an archive and counts its bytes."""

    def __init__(self, sink, old: Contents | None, form: Form = WHOLE) -> None:
        self._sink = sink
        self._old = old
        self._form = form
        self._written = 0

    def _write(self, data: bytes) -> None:
        self._sink.write(data)
        self._written += len(data)

    def add(self, node: Node) -> None:
        content = node.content or b""
        try:
            found = read_marker(content)
        except ValueError as fault:
            raise Trouble(f"{printed_path(node.path)}: {fault}") from None
        if found:
            self._add_large(node, *found)
            return
        self._write(member_head(member_of(node, len(content), self._form)))
        if content:
            self._write(content + padding(len(content)))

    def add_hard_link(self, node: Node, first: bytes) -> None:
        """A node that is another name of an object whose first name was added before."""
        self._write(member_head(Member(
            b"." + node.path, b"1", node.mode, node.uid, node.gid, 0, node.modify // 1000000, b"." + first)))

    def add_real(self, node: Node, folder: FolderReader) -> None:
        """A node of a folder; the bytes of a file come from there."""
        size = folder.size(node) if node.kind == "f" else 0
        self._write(member_head(member_of(node, size, self._form)))
        if size:
            written = 0
            for piece in folder.pieces(node):
                self._write(piece)
                written += len(piece)
            if written != size:
                raise Trouble(f"{printed_path(node.path)}: its length has changed while it was read")
            self._write(padding(size))

    def _add_large(self, node: Node, marker: Marker, added: bytes) -> None:
        """A file whose contents stand in the old archive, and what a run has added."""
        if self._old is None:
            raise Trouble(f"{printed_path(node.path)}: a large file; its contents stand in the "
                          "archive that the image was made of, which is not given")
        found = self._old.find(marker)
        if found is None:
            raise Trouble(f"{printed_path(node.path)}: no file of the old archive has its contents")
        size = marker.length + len(added)
        self._write(member_head(member_of(node, size, self._form)))
        for piece in self._old.pieces(found):
            self._write(piece)
        self._write(added + padding(size))

    def finish(self) -> None:
        self._write(archive_end(self._written))
        self._sink.flush()


def convert(old: OldContents | None) -> None:
    """Read the image, write the archive."""
    image = ImageReader(sys.stdin.buffer, lambda message: print(message, file=sys.stderr))
    writer = Writer(sys.stdout.buffer, old)
    for node in image.nodes():
        writer.add(node)
    writer.finish()


def convert_folder(folder: FolderReader) -> None:
    """Write the archive of a folder."""
    writer = Writer(sys.stdout.buffer, None)
    nodes = list(folder.nodes())
    first_names = join_names(folder.hard_links(nodes))
    for node in nodes:
        if node.path in first_names:
            writer.add_hard_link(node, first_names[node.path])
        else:
            writer.add_real(node, folder)
    writer.finish()


def run(words: list[str]) -> None:
    parser = argparse.ArgumentParser(
        prog="image_to_tar", description="Makes a tar archive of a tree image on standard input.")
    parser.add_argument("tar", nargs="?", metavar="ROOT.tar",
                        help="the archive that the contents of large files come from")
    parser.add_argument("--folder", metavar="FOLDER", help="read the tree of this folder instead of an image")
    options = parser.parse_args(words)
    if options.folder is not None:
        if options.tar is not None:
            parser.error("--folder takes no archive: the contents are in the folder")
        convert_folder(FolderReader(options.folder))
        return
    if options.tar is None:
        convert(None)
        return
    with open(options.tar, "rb") as file:
        convert(OldContents(file))


def main() -> int:
    gc.disable()  # there are no cycles, and many nodes
    try:
        run(sys.argv[1:])
    except (Trouble, OSError) as trouble:
        print(f"image_to_tar: error: {trouble}", file=sys.stderr)
        return 1
    return 0


if __name__ == "__main__":
    sys.exit(main())
