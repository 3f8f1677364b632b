"""Images and the archives they give, round trips, and large files; each wanted text is written by hand."""

import hashlib
import os
import subprocess
import tarfile
import unittest
from base64 import b64encode
from io import BytesIO

from tests.helper import ToolCase, archive, file_member, folder_member, image

from tree_image import ImageReader, Trouble, path_key, printed, read_marker, unprinted


def refused(text: str) -> bytes:
    return f"image_to_tar: error: {text}\n".encode()


WHOLE = (
    b"tree-image 2\n"
    b"fact H box\n"
    b"d / 0755 0 0 1,2,3,4 - - - -\n"
    b"f /.#tf-x 7777 1 2 0,0,0,0 - - - AA==\n"
    b"b /b 0660 0 6 5000000,5000000,5000000,5000000 - - - 4294967295:8\n"
    b"d /d 2750 4294967294 2097152 0,0,18446744073709551615,9000001 u:7:rwx,g:8:---,"
    b"d:u::rwx,d:u:1:r--,d:g::---,d:m::rwx,d:o::--x security.x=\\x00\\x0a,user.p%\\x3d= Aai -\n"
    b"f /d/\\xff\\x0a 0604 0 0 0,0,0,0 m::-wx - d aGVsbG8=\n"
    b"d /e 0700 0 0 0,0,0,0 d:u::rwx,d:u:1:r--,d:g::---,d:o::--x - - -\n"
    b"l /l 0777 3 4 0,0,0,6 - - - ../a\\x20b\n"
    b"p /p 0000 0 0 0,0,0,0 g:0:rwx - - -\n"
    b"end\n")


class OneWay(ToolCase):
    def test_members_as_another_reader_sees_them(self):
        made = self.to_tar(WHOLE)
        self.assertEqual(len(made) % 10240, 0)
        with tarfile.open(fileobj=BytesIO(made)) as tar:
            members = {it.name: it for it in tar.getmembers()}
            content = tar.extractfile(members["./.#tf-x"]).read()
        self.assertEqual(content, b"\0")
        names = [".", "./.#tf-x", "./b", "./d", "./d/\udcff\n", "./e", "./l", "./p"]
        self.assertEqual(list(members), names)
        self.assertEqual(members["./l"].linkname, "../a b")
        self.assertEqual([members[name].mode for name in names],
                         [0o755, 0o7777, 0o660, 0o2770, 0o634, 0o700, 0o777, 0o070])
        records = members["./d"].pax_headers
        self.assertEqual(records["SCHILY.acl.access"],
                         "user::rwx,user:7:rwx,group::r-x,group:8:---,mask::rwx,other::---")
        self.assertEqual(records["SCHILY.acl.default"],
                         "user::rwx,user:1:r--,group::---,mask::rwx,other::--x")
        self.assertEqual(records["PROVISION.mask"], "access")
        self.assertEqual(records["PROVISION.letters"], "Aai")
        self.assertEqual(records["ctime"], "18446744073709.551615")
        self.assertEqual(records["SCHILY.xattr.user.p%25%3D"], "")
        self.assertEqual((members["./d"].uid, members["./d"].gid), (4294967294, 2097152))
        self.assertEqual(members["./b"].pax_headers, {"SCHILY.devmajor": "4294967295"})

    def test_messages_and_the_first_version(self):
        text = b": one\n: two\ntree-image 1\nd / 0755 0 0 0,0,0,0 - -\nend\n"
        made = self.to_tar(text, said=b": one\n: two\n")
        self.assertEqual(made, archive(folder_member(b"./")))

    def test_a_message_without_an_image(self):
        said = b": usage\n" + refused("bad image at line 2: Truncated")
        self.assertEqual(self.to_tar(b": usage\n", said=said, status=1), b"")

    def test_damaged_images(self):
        root = b"tree-image 2\nd / 0755 0 0 0,0,0,0 - - - -\n"
        for text, fault in (
            (b"", "1: Truncated"),
            (b": usage\n", "2: Truncated"),
            (b"tree-image 3\n", "1: BadHeader"),
            (b"tree-image 2\nend\n", "2: NoParent"),
            (root, "3: Truncated"),
            (root + b"f /a 0644 0 0 0,0,0,0 - - - -\n", "4: Truncated"),
            (root + b"f /b 0644 0 0 0,0,0,0 - - - -\nf /a 0644 0 0 0,0,0,0 - - - -\nend\n", "4: OutOfOrder"),
            (root + b"f /a/b 0644 0 0 0,0,0,0 - - - -\nend\n", "3: NoParent"),
            (root + b"f /a 0644 0 0 0,0,0,0 - - - eA=\nend\n", "3: BadLine"),
            (root + b"f /a 0644 0 4294967295 0,0,0,0 - - - -\nend\n", "3: BadLine"),
            (root + b"f /a 0644 0 00 0,0,0,0 - - - -\nend\n", "3: BadLine"),
            (root + b"f /a 0644 0 0 0,0,0,0 d:u::r--,d:g::r--,d:o::r-- - - -\nend\n", "3: BadLine"),
            (root + b"f /a 0644 0 0 0,0,0,0 u:2:r--,u:1:r-- - - -\nend\n", "3: BadLine"),
            (root + b"f /a 0644 0 0 0,0,0,0 - user.b=,user.a= - -\nend\n", "3: BadLine"),
            (root + b"f /a 0644 0 0 0,0,0,0 - - ia -\nend\n", "3: BadLine"),
            (root + b"f /a\\x41 0644 0 0 0,0,0,0 - - - -\nend\n", "3: BadLine"),
            (root + b"l /a 0755 0 0 0,0,0,0 - - - t\nend\n", "3: BadLine"),
            (root + b"c /a 0755 0 0 0,0,0,0 - - - 1:4294967296\nend\n", "3: BadLine"),
            (root + b"end\nend\n", "4: BadLine"),
        ):
            with self.subTest(text=text):
                said = refused(f"bad image at line {fault}")
                made = self.to_tar(text, said=None, status=1)
                with self.assertRaises(Trouble) as found:
                    list(ImageReader(text.splitlines(keepends=True)).nodes())
                self.assertEqual(refused(str(found.exception)), said)
                self.assertFalse(made.endswith(bytes(1024)))


class RoundTrips(ToolCase):
    def test_an_image_comes_back(self):
        made = self.to_tar(WHOLE)
        self.assertEqual(self.to_image(made, "--strict"), WHOLE.replace(b"fact H box\n", b""))

    def test_names_of_each_length(self):
        lines = [b"d /" + b"a" * 90 + b" 0755 0 0 0,0,0,0 - - - -"]
        for length in range(1, 256):
            lines.append(b"f /" + b"a" * 90 + b"/" + b"b" * length + b" 0644 0 0 0,0,0,0 - - - -")
        for length in range(90, 256):
            lines.append(b"l /c" + b"c" * (length - 1) + b" 0777 0 0 0,0,0,0 - - - " + b"t" * length)
        lines.append(b"l /z 0777 0 0 0,0,0,0 - - - " + b"\\xff" * 4095)
        self.assertEqual(self.to_image(self.to_tar(image(*lines)), "--strict"), image(*lines))

    def test_contents_of_each_length(self):
        tar = archive(*((file_member(b"f%04d" % n), bytes(n)) for n in range(0, 1600, 53)))
        self.assertEqual(self.to_tar(self.to_image(tar)), self.to_tar(self.to_image(self.to_tar(self.to_image(tar)))))
        with tarfile.open(fileobj=BytesIO(self.to_tar(self.to_image(tar)))) as made:
            self.assertEqual([it.size for it in made.getmembers()[1:]], list(range(0, 1600, 53)))

    def test_gnu_tar_unpacks_what_is_written(self):
        self.need("tar", "getfacl", "getfattr")
        if os.geteuid() != 0:
            self.skipTest("this is not root")
        text = image(b"f /f 0640 7 8 3000000,3000000,3000000,3000000 u:1234:rw- user.k=v\\x20w - aGkK",
                     b"l /l 0777 0 0 0,0,0,0 - - - f")
        (self.room / "made.tar").write_bytes(self.to_tar(text))
        self.sh("mkdir out; tar -C out --acls --xattrs --xattrs-include='*' -xpf made.tar")
        tried = subprocess.run("setfacl -m u:1:r . && setfattr -n user.k -v v .", shell=True, cwd=self.room,
                               capture_output=True, check=False)
        if tried.returncode:
            self.skipTest("the file system has no ACLs or no user attributes")
        made = os.stat(self.room / "out/f")
        self.assertEqual((made.st_mode & 0o7777, made.st_uid, made.st_gid, made.st_mtime), (0o660, 7, 8, 3))
        self.assertEqual(os.getxattr(self.room / "out/f", "user.k"), b"v w")
        self.assertEqual(os.readlink(self.room / "out/l"), "f")
        acl = subprocess.run(["getfacl", "-nc", "out/f"], cwd=self.room, capture_output=True, check=True).stdout
        self.assertEqual(acl, b"user::rw-\nuser:1234:rw-\ngroup::r--\nmask::rw-\nother::---\n\n")
        self.sh("tar -C out --format=pax --acls --xattrs -cf again.tar f l")
        again = self.to_image((self.room / "again.tar").read_bytes())
        self.assertIn(b" u:1234:rw-,m::rw- user.k=v\\x20w - aGkK\n", again)


class LargeFiles(ToolCase):
    BIG = bytes(range(256)) * 300  # 76,800 bytes
    MARKER = b"provision-large-file sha256 %s length 76800\n" % hashlib.sha256(BIG).hexdigest().encode()

    def setUp(self):
        super().setUp()
        self.old = archive(folder_member(b"d"), (file_member(b"d/big"), self.BIG), (file_member(b"e"), b"x" * 65536),
                           (file_member(b"same"), bytes(76800)))
        (self.room / "old.tar").write_bytes(self.old)

    def line(self, path: bytes, content: bytes) -> bytes:
        return b"f %s 0644 0 0 0,0,0,0 - - - %s" % (path, b64encode(content))

    def contents(self, made: bytes) -> dict[str, bytes]:
        with tarfile.open(fileobj=BytesIO(made)) as tar:
            return {it.name: tar.extractfile(it).read() for it in tar.getmembers() if it.isfile()}

    def test_contents_over_the_limit_are_a_marker(self):
        lines = self.to_image(self.old).splitlines()
        self.assertEqual(lines[3], self.line(b"/d/big", self.MARKER))
        self.assertEqual(lines[4], self.line(b"/e", b"x" * 65536))
        lines = self.to_image(self.old, "--inline-limit", "76800").splitlines()
        self.assertEqual(lines[3], self.line(b"/d/big", self.BIG))
        lines = self.to_image(self.old, "--inline", "/d/big").splitlines()
        self.assertEqual(lines[3], self.line(b"/d/big", self.BIG))

    def test_the_limit_is_halved_where_there_is_much(self):
        # 200 files of 60,000 bytes and 1,000 of 5,000: more than 8 MiB above 32,768 bytes, and less below
        sizes = [(b"a%03d" % n, 60000) for n in range(200)] + [(b"b%03d" % n, 5000) for n in range(1000)]
        old = archive(*((file_member(name), name * (size // 4)) for name, size in sizes))
        said = (b"tar_to_image: note: contents over 32768 bytes stand as markers, so that the image stays short\n")
        text = self.to_image(old, "--strict", said=said)
        self.assertEqual(text.count(b64encode(b"provision-large-file sha256")), 200)
        self.assertIn(self.line(b"/b999", b"b999" * 1250), text)
        (self.room / "old.tar").write_bytes(old)
        made = self.contents(self.to_tar(text, str(self.room / "old.tar")))
        self.assertEqual(made, {"./" + name.decode(): name * (size // 4) for name, size in sizes})
        self.assertEqual(self.to_image(old, "--inline-limit", "60000").count(b64encode(b"provision-large-file sha256")), 0)

    def test_moved_copied_and_added_to(self):
        text = image(self.line(b"/a", self.MARKER), self.line(b"/b", self.MARKER),
                     self.line(b"/c", self.MARKER + b"more"), self.line(b"/d", b"new"))
        made = self.contents(self.to_tar(text, str(self.room / "old.tar")))
        self.assertEqual(made, {"./a": self.BIG, "./b": self.BIG, "./c": self.BIG + b"more", "./d": b"new"})

    def test_sparse_files_of_the_old_archive(self):
        self.need("tar")
        self.sh("truncate -s 1000000 f; printf a | dd of=f bs=1 seek=500000 conv=notrunc status=none;"
                "tar --format=pax -S -cf old.tar f")
        text = self.to_image((self.room / "old.tar").read_bytes())
        self.assertIn(b"f /f ", text)
        self.assertLess(len(text), 1000)
        wanted = bytes(500000) + b"a" + bytes(499999)
        self.assertEqual(self.contents(self.to_tar(text, str(self.room / "old.tar"))), {"./f": wanted})

    def test_the_old_archive_is_needed(self):
        text = image(self.line(b"/a", self.MARKER))
        self.to_tar(text, status=1, said=refused("/a: a large file; its contents stand in the archive that the image "
                                                 "was made of, which is not given"))
        (self.room / "none.tar").write_bytes(archive((file_member(b"big"), bytes(76800))))
        self.to_tar(text, str(self.room / "none.tar"), status=1,
                    said=refused("/a: no file of the old archive has its contents"))

    def test_contents_that_look_like_a_marker(self):
        odd = [self.MARKER, self.MARKER + b"x", b"provision-large-file sha256 ", b"provision-large-file sha256 zz"]
        old = archive((file_member(b"big"), self.BIG), *((file_member(b"o%d" % n), it) for n, it in enumerate(odd)))
        (self.room / "odd.tar").write_bytes(old)
        text = self.to_image(old)
        for it in odd:
            self.assertNotIn(self.line(b"", it).split()[-1] + b"\n", text.replace(self.line(b"/big", self.MARKER), b""))
        made = self.contents(self.to_tar(text, str(self.room / "odd.tar")))
        self.assertEqual(made, {"./big": self.BIG, **{f"./o{n}": it for n, it in enumerate(odd)}})
        self.to_tar(image(self.line(b"/o", odd[3])), status=1,
                    said=refused("/o: contents that begin as a marker does and are none"))

    def test_configuration_stays_inline(self):
        long = b"#" * 70000
        for name in (b"etc/passwd", b"etc/group", b"etc/shadow", b"etc/gshadow", b"usr/lib/tmpfiles.d/a.conf",
                     b"run/sysusers.d/b.conf", b"x/tmpfiles.d/deep/c"):
            text = self.to_image(archive((file_member(name), long)), said=None)
            self.assertIn(self.line(b"/" + name, long), text)
        for name in (b"passwd", b"etc/passwd-", b"tmpfiles.d"):
            self.assertNotIn(self.line(b"/" + name, long), self.to_image(archive((file_member(name), long)), said=None))
        odd = archive((file_member(b"etc/passwd"), self.MARKER))
        said = b"tar_to_image: error: /etc/passwd: configuration that begins as the marker of a large file does\n"
        self.to_image(odd, status=1, said=said)


class Texts(unittest.TestCase):
    def test_printed_bytes(self):
        self.assertEqual(printed(b"a b\\\x7f\xff~!"), b"a\\x20b\\x5c\\x7f\\xff~!")
        self.assertEqual(unprinted(b"a\\x20b"), b"a b")
        for text in (b"a b", b"\\x41", b"\\x5C", b"\\", b"\\x2", b"\\n"):
            self.assertIsNone(unprinted(text))

    def test_the_order_of_paths(self):
        paths = [b"/", b"/a", b"/a/b", b"/a/b/c", b"/a\x01", b"/a-", b"/b"]
        self.assertEqual(sorted(reversed(paths), key=path_key), paths)

    def test_markers(self):
        self.assertIsNone(read_marker(b"text"))
        text = b"provision-large-file sha256 " + b"0" * 64 + b" length 70000\nmore"
        marker, added = read_marker(text)
        self.assertEqual((marker.name, marker.length, added), ("sha256 " + "0" * 64, 70000, b"more"))
        self.assertEqual(marker.text() + added, text)


if __name__ == "__main__":
    unittest.main()
