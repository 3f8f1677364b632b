"""Archives and images with a few changed bytes are read or refused, and never break a tool."""

import io
import random
import unittest
from contextlib import redirect_stderr

from tests.helper import archive, file_member, folder_member
from tests.test_image_to_tar import WHOLE

from tar_stream import Member
from tar_to_image import Builder, all_facts, image_pieces, read_tar
from tree_image import ImageReader, Notices, Trouble

RECORDS = {
    b"SCHILY.acl.access": b"user::rw-,user:5:rwx,group::r--,mask::rwx,other::r--", b"SCHILY.xattr.user.a": b"1",
    b"PROVISION.letters": b"ai", b"atime": b"12.5", b"GNU.sparse.map": b"0,1,5,1", b"GNU.sparse.size": b"6",
}
ARCHIVE = archive(
    folder_member(b"./"), folder_member(b"./etc"), (file_member(b"etc/passwd"), b"app:x:70:71:::\n"),
    (file_member(b"etc/os-release"), b'ID="x"\nVERSION_ID=1\n'), (file_member(b"f" * 120, records=RECORDS), b"ab"),
    Member(b"l", b"2", target=b"t" * 120), Member(b"h", b"1", target=b"etc/passwd"),
    Member(b"c", b"3", major=1, minor=3))


def changed(data: bytes, draw: random.Random) -> bytes:
    """Data with a few bytes changed, put in or taken away."""
    made = bytearray(data)
    for _ in range(draw.randrange(1, 4)):
        at = draw.choice([at for at, byte in enumerate(made) if byte] or [len(made)])
        if at == len(made):
            break
        if (how := draw.randrange(3)) == 0:
            made[at] = draw.choice(b"\0 /.:,=-09x\xff\n")
        elif how == 1:
            made[at:at] = draw.choice((b"\0", b"9" * 5000, b"\n", b" ", b"..", b"-", bytes(512)))
        else:
            del made[at:at + draw.choice((1, 2, 512))]
    return bytes(made)


def with_checksums(data: bytes) -> bytes:
    """An archive of which each header that stands at its place has the right checksum."""
    made = bytearray(data)
    for at in range(0, len(made) - 511, 512):
        if made[at + 257:at + 262] == b"ustar":
            made[at + 148:at + 156] = b" " * 8
            made[at + 148:at + 156] = b"%06o\0 " % sum(made[at:at + 512])
    return bytes(made)


class Damage(unittest.TestCase):
    COUNT = 1500

    def test_archives(self):
        draw = random.Random(1)
        ends = {True: 0, False: 0}
        for _ in range(self.COUNT):
            data = with_checksums(changed(ARCHIVE, draw))
            builder = Builder(Notices("test"), None, frozenset())
            try:
                with redirect_stderr(io.StringIO()):
                    nodes = read_tar(io.BytesIO(data), builder)
                    text = b"".join(image_pieces(builder, nodes, all_facts(builder, {})))
                for _ in ImageReader(text.splitlines(keepends=True)).nodes():
                    pass
                ends[True] += 1
            except Trouble:
                ends[False] += 1
            builder.store.close()
        self.assertGreater(ends[True], self.COUNT // 20)
        self.assertGreater(ends[False], self.COUNT // 20)

    def test_images(self):
        draw = random.Random(2)
        refused = 0
        for _ in range(self.COUNT):
            try:
                for _ in ImageReader(io.BytesIO(changed(WHOLE, draw))).nodes():
                    pass
            except Trouble:
                refused += 1
        self.assertGreater(refused, self.COUNT // 2)


if __name__ == "__main__":
    unittest.main()
