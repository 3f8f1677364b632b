"""The tar format as a stream of members, both ways, in bytes.

Reads ustar, pax and GNU archives (long names, numbers in base 256, sparse
files of all four forms) from a pipe or a file, and writes ustar with pax
records where the header is too narrow. Nothing is decoded: names, targets
and values stay bytes.
"""

from collections.abc import Iterator
from dataclasses import dataclass, field

from tree_image import Trouble

BLOCK = 512
PIECE = 1 << 20
ZEROS = bytes(BLOCK)
RECORD = 20 * BLOCK
XATTR = b"SCHILY.xattr."  # the one record that an empty value does not take away

_PACKED = {
    b"\x1f\x8b": "gzip",
    b"BZh": "bzip2",
    b"\xfd7zXZ\0": "xz",
    b"\x28\xb5\x2f\xfd": "zstd",
}


@dataclass(slots=True)
class Member:
    """One member: `offset` and `stored` tell where its bytes stand in the archive."""

    name: bytes
    kind: bytes
    mode: int = 0
    uid: int = 0
    gid: int = 0
    size: int = 0
    seconds: int = 0
    target: bytes = b""
    major: int = 0
    minor: int = 0
    records: dict[bytes, bytes] = field(default_factory=dict)
    offset: int = 0
    stored: int = 0
    segments: list[tuple[int, int]] | None = None


def _number(text: bytes) -> int:
    """A number of a header: octal digits, or base 256 where its first bit is set."""
    if text[-1:] == b"\0" and text[:-1].isdigit():
        return int(text[:-1], 8)
    if text[0] & 0x80:
        if text[0] == 0xFF:
            return int.from_bytes(text, "big", signed=True)
        return int.from_bytes(bytes([text[0] & 0x7F]) + text[1:], "big")
    digits = text.split(b"\0", 1)[0].strip()
    return int(digits, 8) if digits else 0


def _text(data: bytes) -> bytes:
    """The bytes of a field before its first NUL."""
    return data.split(b"\0", 1)[0]


def _padded(size: int) -> int:
    return (size + BLOCK - 1) // BLOCK * BLOCK


def read_records(data: bytes) -> dict[bytes, bytes]:
    """The records of a pax header; repeated ones of a sparse map are joined."""
    records: dict[bytes, bytes] = {}
    at = 0
    while at < len(data) and data[at]:
        space = data.index(b" ", at)
        end = at + int(data[at:space])
        equal = data.index(b"=", space, end)
        if end > len(data) or data[end - 1] != 10:
            raise ValueError("record")
        key, value = data[space + 1:equal], data[equal + 1:end - 1]
        if key in (b"GNU.sparse.offset", b"GNU.sparse.numbytes"):
            before = records.get(b"GNU.sparse.map")
            key, value = b"GNU.sparse.map", value if before is None else before + b"," + value
        records[key] = value
        at = end
    return records


class TarReader:
    """Members of an archive in order; the bytes of the present one by `contents`."""

    def __init__(self, file) -> None:
        self._file = file
        self.position = 0
        self.global_records: dict[bytes, bytes] = {}
        self.ended = False
        self.rest = False

    def _fault(self, at: int, what: str) -> Trouble:
        return Trouble(f"bad tar at byte {at}: {what}")

    def take(self, size: int) -> bytes:
        """Exactly so many bytes."""
        data = self._file.read(size)
        self.position += len(data)
        if len(data) != size:
            raise self._fault(self.position, "the archive is cut off")
        return data

    def seek(self, position: int) -> None:
        """Go to a place of an archive that is a file."""
        self._file.seek(position)
        self.position = position

    def _skip_to(self, position: int) -> None:
        while self.position < position:
            self.take(min(PIECE, position - self.position))

    def members(self, by_seek: bool = False) -> Iterator[Member]:
        """All members; `by_seek` goes over their bytes without reading them."""
        length = self._file.seek(0, 2) if by_seek else None
        if by_seek:
            self.seek(self.position)
        while (member := self._next_member()) is not None:
            yield member
            end = member.offset + _padded(member.stored)
            if by_seek:
                if member.offset + member.stored > length:
                    raise self._fault(length, "the archive is cut off")
                self.seek(end)
            else:
                self._skip_to(end)

    def _header(self) -> bytes | None:
        """The next header; None at the end of the archive."""
        at = self.position
        block = self._file.read(BLOCK)
        self.position += len(block)
        if not block and at:
            return None
        if len(block) == BLOCK and block == ZEROS:
            self.ended = True
            return None
        self._check_header(block, at)
        return block

    def _check_header(self, block: bytes, at: int) -> None:
        if at == 0:
            for magic, name in _PACKED.items():
                if block.startswith(magic):
                    raise self._fault(0, f"it is packed by {name}; unpack it first")
        if len(block) < BLOCK:
            raise self._fault(at, "the archive is cut off" if at else "this is no tar")
        try:
            wanted = _number(block[148:156])
        except ValueError:
            wanted = -1
        if wanted != sum(block) - sum(block[148:156]) + 256 and wanted != _signed_sum(block):
            raise self._fault(at, "a damaged header" if at else "this is no tar")

    def _next_member(self) -> Member | None:
        records: dict[bytes, bytes] = {}
        long_name = long_target = None
        while (block := self._header()) is not None:
            at = self.position - BLOCK
            kind = block[156:157]
            try:
                if kind in b"xXgLK":
                    data = self._extra(block)
                    if kind == b"g":
                        self.global_records.update(read_records(data))
                    elif kind == b"L":
                        long_name = _text(data)
                    elif kind == b"K":
                        long_target = _text(data)
                    else:
                        records = read_records(data)
                    continue
                return self._member(block, records, long_name, long_target)
            except ValueError:
                raise self._fault(at, "a damaged header") from None
        if records or long_name or long_target:
            raise self._fault(self.position, "the archive is cut off")
        return None

    def _extra(self, block: bytes) -> bytes:
        """The data of a header that belongs to the next member."""
        size = _number(block[124:136])
        if not 0 <= size <= 1 << 28:
            raise ValueError("size")
        data = self.take(size)
        self._skip_to(self.position + _padded(size) - size)
        return data

    def _member(self, block, records, long_name, long_target) -> Member:
        kind = block[156:157]
        name = _text(block[:100])
        if block[257:263] == b"ustar\0" and block[345]:
            name = _text(block[345:500]) + b"/" + name
        member = Member(
            name if long_name is None else long_name, kind,
            _number(block[100:108]), _number(block[108:116]), _number(block[116:124]),
            _number(block[124:136]), _number(block[136:148]),
            _text(block[157:257]) if long_target is None else long_target,
        )
        if kind in b"34":
            member.major, member.minor = _number(block[329:337]), _number(block[337:345])
        if self.global_records:
            records = {**self.global_records, **records}
        if records:
            self._put_records(member, {
                key: value for key, value in records.items() if value or key.startswith(XATTR)})
        if member.size < 0:
            raise ValueError("size")
        member.stored = member.size if kind not in b"123456" or kind == b"" else 0
        if kind == b"S":
            self._old_sparse(member, block)
        member.offset = self.position
        if b"GNU.sparse.major" in member.records or b"GNU.sparse.map" in member.records:
            self._pax_sparse(member)
        return member

    @staticmethod
    def _put_records(member: Member, records: dict[bytes, bytes]) -> None:
        """Records that stand for fields of the header."""
        member.records = records
        member.name = records.get(b"path", member.name)
        member.name = records.get(b"GNU.sparse.name", member.name)
        member.target = records.get(b"linkpath", member.target)
        for key, name in _NUMBER_RECORDS:
            if key in records:
                setattr(member, name, int(records[key]))

    def _old_sparse(self, member: Member, block: bytes) -> None:
        """The map of a sparse file in the header itself."""
        segments = _old_entries(block, 386, 4)
        more = block[482]
        while more:
            extension = self.take(BLOCK)
            segments += _old_entries(extension, 0, 21)
            more = extension[504]
        member.segments = segments
        member.size = _number(block[483:495])

    def _pax_sparse(self, member: Member) -> None:
        """The map of a sparse file in records, or before its bytes."""
        records = member.records
        size = records.get(b"GNU.sparse.realsize", records.get(b"GNU.sparse.size"))
        if size is None:
            raise ValueError("sparse")
        if b"GNU.sparse.map" in records:
            numbers = [int(text) for text in records[b"GNU.sparse.map"].split(b",") if text]
        else:
            numbers = self._map_in_bytes(member)
        member.segments = list(zip(numbers[::2], numbers[1::2], strict=True))
        member.size = int(size)

    def _map_in_bytes(self, member: Member) -> list[int]:
        """The map in decimal lines that stands before a sparse file's bytes."""
        lines = self.take(BLOCK)
        while lines.count(b"\n") < 1:
            lines += self.take(BLOCK)
        wanted = 1 + 2 * int(lines.split(b"\n", 1)[0])
        while lines.count(b"\n") < wanted:
            if len(lines) >= member.stored:
                raise ValueError("sparse")
            lines += self.take(BLOCK)
        member.offset += len(lines)
        member.stored -= len(lines)
        return [int(text) for text in lines.split(b"\n")[1:wanted]]

    def whole(self, member: Member) -> bytes:
        """The contents of the present member at once."""
        if member.segments is None:
            return self.take(member.size)
        return b"".join(self.contents(member))

    def contents(self, member: Member) -> Iterator[bytes]:
        """The contents of the present member, in pieces."""
        if member.segments is None:
            yield from self._pieces(member.size)
            return
        at = 0
        for offset, length in member.segments:
            if offset < at or length < 0 or offset + length > member.size:
                raise self._fault(member.offset, "a damaged map of a sparse file")
            yield from _zeros(offset - at)
            yield from self._pieces(length)
            at = offset + length
        yield from _zeros(member.size - at)

    def _pieces(self, size: int) -> Iterator[bytes]:
        while size:
            data = self.take(min(PIECE, size))
            size -= len(data)
            yield data

    def drain(self) -> bool:
        """Read what follows the end; whether it is anything but zeros."""
        odd = False
        while data := self._file.read(PIECE):
            odd = odd or data.count(0) != len(data)
        return odd


_NUMBER_RECORDS = (
    (b"size", "size"), (b"uid", "uid"), (b"gid", "gid"),
    (b"SCHILY.devmajor", "major"), (b"SCHILY.devminor", "minor"),
)


def _signed_sum(block: bytes) -> int:
    """The checksum of some old archives, of signed bytes."""
    rest = block[:148] + block[156:]
    return 256 + sum(byte - 256 if byte > 127 else byte for byte in rest)


def _old_entries(block: bytes, at: int, count: int) -> list[tuple[int, int]]:
    entries = []
    for start in range(at, at + 24 * count, 24):
        if not block[start]:
            break
        entries.append((_number(block[start:start + 12]), _number(block[start + 12:start + 24])))
    return entries


def _zeros(size: int) -> Iterator[bytes]:
    while size:
        length = min(PIECE, size)
        size -= length
        yield bytes(length)


# Writing

def record(key: bytes, value: bytes) -> bytes:
    """One pax record, which begins with its own length."""
    rest = b" " + key + b"=" + value + b"\n"
    length = len(rest) + 1
    while len(str(length)) + len(rest) != length:
        length = len(str(length)) + len(rest)
    return str(length).encode() + rest


_NARROW, _WIDE = 8**7, 8**11
_NO_OWNER_NAMES = bytes(64)


def _block(member: Member, prefix: bytes) -> bytes:
    """The header of a member whose fields have room for it."""
    block = b"%s%07o\0%07o\0%07o\0%011o\0%011o\0        %s%sustar\x0000%s%07o\0%07o\0%s" % (
        member.name.ljust(100, b"\0"), member.mode, member.uid, member.gid, member.size,
        member.seconds, member.kind, member.target.ljust(100, b"\0"), _NO_OWNER_NAMES,
        member.major, member.minor, prefix.ljust(167, b"\0"),
    )
    return b"%s%06o\0 %s" % (block[:148], sum(block), block[156:])


def _split(name: bytes) -> tuple[bytes, bytes] | None:
    """A name in the two fields of a header; None where it is too long."""
    if len(name) <= 100:
        return b"", name
    at = name.find(b"/", len(name) - 101)
    if at < 0 or at > 155 or not name[at + 1:]:
        return None
    return name[:at], name[at + 1:]


def _has_room(member: Member) -> bool:
    """Whether a header holds a member without any record."""
    return not (
        member.records or len(member.name) > 100 or len(member.target) > 100
        or max(member.uid, member.gid, member.major, member.minor) >= _NARROW
        or max(member.size, member.seconds) >= _WIDE
    )


def member_head(member: Member) -> bytes:
    """The header of a member, after one with records where they are needed."""
    if _has_room(member):
        return _block(member, b"")
    records = dict(member.records)
    fields = _split(member.name)
    if fields is None:
        records[b"path"] = member.name
        fields = b"", member.name[:100]
    if len(member.target) > 100:
        records[b"linkpath"] = member.target
    prefix, name = fields
    short = Member(
        name, member.kind, member.mode, member.uid, member.gid, member.size,
        member.seconds if member.seconds < _WIDE else 0,
        member.target[:100], member.major, member.minor,
    )
    for key, field_name in _NUMBER_RECORDS:
        number = getattr(member, field_name)
        if number >= (_WIDE if field_name == "size" else _NARROW):
            records[key] = b"%d" % number
            setattr(short, field_name, 0)
    return (_records_head(name, records) if records else b"") + _block(short, prefix)


def _records_head(name: bytes, records: dict[bytes, bytes]) -> bytes:
    texts = [record(key, value) for key, value in records.items()]
    if any(not _is_utf8(records.get(key, b"")) for key in (b"path", b"linkpath")):
        texts.insert(0, record(b"hdrcharset", b"BINARY"))
    data = b"".join(texts)
    head = _block(Member(b"././@PaxHeader", b"x", mode=0o644, size=len(data)), b"")
    return head + data + bytes(-len(data) % BLOCK)


def _is_utf8(data: bytes) -> bool:
    try:
        data.decode()
    except UnicodeDecodeError:
        return False
    return True


def padding(size: int) -> bytes:
    """What fills the last block of a member's bytes."""
    return bytes(-size % BLOCK)


def archive_end(written: int) -> bytes:
    """The end of an archive of so many bytes."""
    return bytes(2 * BLOCK + (-(written + 2 * BLOCK)) % RECORD)
