"""Trees in folders: from an archive into a folder, and back."""

import os
import tarfile
import unittest
from contextlib import redirect_stderr
from hashlib import sha256
from io import BytesIO, StringIO

from tests.helper import ToolCase, archive, file_member, folder_member, image
from tar_stream import Member
from tree_folder import FolderReader, write_folder
from tree_image import Node, Notices, Trouble

LARGE = b"x" * (3 << 20)


def link_member(name: bytes, target: bytes) -> Member:
    return Member(name, b"2", mode=0o777, target=target)


class Folders(ToolCase):
    def setUp(self) -> None:
        super().setUp()
        self.folder = self.room / "it"
        self.option = f"--folder={self.folder}"

    def write(self, tar: bytes, said: bytes | None = b"", status: int = 0) -> None:
        self.assertEqual(self.to_image(tar, self.option, said=said, status=status), b"")

    def read(self) -> bytes:
        return self.to_tar(b"", self.option)

    def prepare(self, *lines: bytes) -> None:
        """A folder by hand, with these lines in its manifest."""
        (self.folder / "tree").mkdir(parents=True)
        (self.folder / "manifest").write_bytes(image(*lines))

    def paths(self) -> list[tuple[bytes, str, int]]:
        return [(node.path, node.kind, node.mode) for node in FolderReader(str(self.folder)).nodes()]

    def test_what_is_real_and_what_the_manifest_says(self):
        self.write(archive(
            folder_member(b"./"), folder_member(b"etc/", uid=3), (file_member(b"etc/os-release"), b"ID=it\n"),
            (file_member(b"large", gid=4), LARGE), link_member(b"link", b"etc"), Member(b"pipe", b"6", mode=0o600)))
        tree = self.folder / "tree"
        self.assertEqual(sorted(os.listdir(self.folder)), ["manifest", "tree"])
        self.assertEqual(sorted(os.listdir(tree)), ["etc", "large"])
        self.assertEqual((tree / "large").read_bytes(), LARGE)
        self.assertEqual((self.folder / "manifest").read_bytes(), (
            b"tree-image 2\nfact o it\nd / 0755 0 0 0,0,0,0 - - - -\nd /etc 0755 3 0 0,0,0,0 - - - -\n"
            b"f /etc/os-release 0644 0 0 0,0,0,0 - - - -\nf /large 0644 0 4 0,0,0,0 - - - -\n"
            b"l /link 0777 0 0 0,0,0,0 - - - etc\np /pipe 0600 0 0 0,0,0,0 - - - -\nend\n"))

    def test_an_archive_comes_back(self):
        tar = self.to_tar(image(
            b"b /b 0660 0 6 5,5,5,5 - - - 8:1", b"d /d 2750 9 8 0,0,7,9 u:7:rwx,d:u::rwx,d:g::---,d:o::--x user.a=b Ai -",
            b"f /d/f 0604 0 0 0,0,0,0 m::-wx - d aGVsbG8=", b"l /l 0777 3 4 0,0,0,6 - - - d"))
        self.write(tar)
        self.assertEqual(self.read(), tar)

    def test_a_folder_that_is_there_stays_as_it_is(self):
        self.folder.mkdir()
        (self.folder / "note").write_bytes(b"kept")
        self.write(archive(folder_member(b"./")), said=None, status=1)
        self.assertEqual(os.listdir(self.folder), ["note"])

    def test_a_name_that_is_not_utf_8(self):
        said = b"tar_to_image: error: /\\xff: a name that is not UTF-8; the program reads none in a folder\n"
        self.write(archive((file_member(b"\xff"), b"")), said=said, status=1)

    def test_more_bytes_than_a_run_takes(self):
        tar = archive((file_member(b"large"), bytes(67108865)), (file_member(b"many"), b"m" * 70000),
                      (file_member(b"few"), b"f" * 60000))
        self.write(tar, said=b"tar_to_image: note: files over 65536 bytes stand aside in %s/contents, so that a run "
                             b"takes the folder\n" % bytes(self.folder))
        marker = b"provision-large-file sha256 %s length 67108865\n" % sha256(bytes(67108865)).hexdigest().encode()
        self.assertEqual((self.folder / "tree/large").read_bytes(), marker)
        self.assertEqual((self.folder / "tree/few").read_bytes(), b"f" * 60000)
        self.assertEqual(len(os.listdir(self.folder / "contents")), 2)
        (self.folder / "tree/copy").write_bytes(marker + b"more")
        made = self.contents(self.read())
        self.assertEqual(made["./large"], bytes(67108865))
        self.assertEqual(made["./copy"], bytes(67108865) + b"more")
        self.assertEqual(made["./many"], b"m" * 70000)

    def contents(self, tar: bytes) -> dict[str, bytes]:
        with tarfile.open(fileobj=BytesIO(tar)) as opened:
            return {it.name: opened.extractfile(it).read() for it in opened.getmembers() if it.isfile()}

    def test_contents_that_look_like_a_marker(self):
        odd = b"provision-large-file sha256 " + b"0" * 64 + b" length 5\n"
        tar = archive(folder_member(b"./"), (file_member(b"odd"), odd), (file_member(b"plain"), b"plain"))
        self.write(tar)
        self.assertEqual(self.contents(self.read()), {"./odd": odd, "./plain": b"plain"})
        self.prepare_plain(odd)
        self.assertEqual(self.contents(self.read())["./odd"], odd)

    def prepare_plain(self, content: bytes) -> None:
        """A folder by hand, with no contents aside, and one file."""
        self.folder = self.room / "plain"
        self.option = f"--folder={self.folder}"
        (self.folder / "tree").mkdir(parents=True)
        (self.folder / "tree/odd").write_bytes(content)

    def test_a_marker_without_its_contents(self):
        self.prepare_plain(b"provision-large-file sha256 " + b"0" * 64 + b" length 5\n")
        (self.folder / "contents").mkdir()
        self.to_tar(b"", self.option, status=1, said=b"image_to_tar: error: /odd: its contents are not in %s/contents\n"
                    % bytes(self.folder))

    def test_more_objects_than_a_run_takes(self):
        nodes = [Node("d", b"/")] + [Node("d", b"/%d" % number) for number in range(1000001)]
        with redirect_stderr(StringIO()) as said:
            write_folder(str(self.folder), {}, nodes, None, Notices("it", strict=True))
        self.assertEqual(said.getvalue(), "it: error: 1000001 objects with 0 bytes; the program takes 1000000 with "
                                          "67108864\n")
        self.assertFalse(self.folder.exists())

    def test_hard_links_are_hard_links(self):
        self.write(archive(folder_member(b"./"), (file_member(b"a"), LARGE), Member(b"b", b"1", target=b"a")), said=None)
        self.assertEqual(os.stat(self.folder / "tree/b").st_nlink, 2)
        with tarfile.open(fileobj=BytesIO(self.read())) as tar:
            self.assertEqual([(it.name, it.linkname) for it in tar if it.islnk()], [("./b", "./a")])

    def test_nobody_else_reads_it(self):
        self.sh("umask 0; mkdir -m 777 it")
        self.write(archive(folder_member(b"./"), folder_member(b"etc"), (file_member(b"etc/shadow"), b"x")))
        for path in (self.folder / "tree", *self.folder.rglob("*")):
            self.assertEqual(path.stat().st_mode & 0o77, 0, path)

    def test_options_that_do_not_go_together(self):
        for words in (("--inline=/a",), ("--inline-limit=9",)):
            self.to_image(archive(folder_member(b"./")), self.option, *words, said=None, status=2)

    def test_what_only_one_side_has(self):
        self.prepare(b"d /a 0700 1 2 0,0,0,0 - - - -", b"l /a/kept 0777 0 0 0,0,0,0 - - - t",
                     b"f /b 0600 1 2 0,0,0,0 - - - -", b"d /c 0700 1 2 0,0,0,0 - - - -",
                     b"l /c/lost 0777 0 0 0,0,0,0 - - - t", b"l /d 0777 0 0 0,0,0,0 - - - t")
        (self.folder / "tree" / "a").mkdir()
        for name in ("c", "d", "e"):
            (self.folder / "tree" / name).write_bytes(b"real")
        self.assertEqual(self.paths(), [
            (b"/", "d", 0o755), (b"/a", "d", 0o700), (b"/a/kept", "l", 0o777),
            (b"/c", "f", 0o644), (b"/d", "f", 0o644), (b"/e", "f", 0o644)])

    def test_without_a_manifest(self):
        self.prepare()
        (self.folder / "manifest").unlink()
        self.assertEqual(self.paths(), [(b"/", "d", 0o755)])

    def test_what_no_folder_may_have(self):
        self.prepare()
        os.symlink("/", self.folder / "tree" / "way")
        with self.assertRaises(Trouble):
            self.paths()
        os.unlink(self.folder / "tree" / "way")
        os.rename(self.folder / "tree", self.folder / "other")
        os.symlink("other", self.folder / "tree")
        with self.assertRaises(Trouble):
            self.paths()


if __name__ == "__main__":
    unittest.main()
