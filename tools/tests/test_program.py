"""From a root file system through the built program to a new one; skipped where CHECK_PROGRAM names no program."""

import subprocess
import tarfile
import unittest
from io import BytesIO

from tests.helper import ToolCase, archive, file_member, folder_member
from tests.program import PROGRAM
from tests.test_image_to_tar import WHOLE

from tar_stream import Member

BIG = bytes(range(256)) * 4000
LINES = (b"C /srv/copy - - - - /usr/share/big\n"
         b"w+ /usr/share/log - - - - more\n"
         b"a+ /usr/share/big - - - - u:app:r\n"
         b"h /usr/share/big - - - - +i\n"
         b"t /usr/share/big - - - - user.k=v\n"
         b"d /run/%m-%b 1777 app app\n")


@unittest.skipUnless(PROGRAM, "CHECK_PROGRAM names no program")
class Runs(ToolCase):
    def setUp(self):
        super().setUp()
        tar = archive(
            folder_member(b"./"), folder_member(b"etc"), folder_member(b"usr"), folder_member(b"usr/share"),
            (file_member(b"etc/passwd"), b"app:x:70:71:::\n"), (file_member(b"etc/group"), b"app:x:71:\n"),
            (file_member(b"etc/machine-id"), b"0123456789abcdef0123456789abcdef\n"),
            folder_member(b"etc/tmpfiles.d"), (file_member(b"etc/tmpfiles.d/a.conf"), LINES),
            (file_member(b"usr/share/big", uid=7, seconds=9), BIG), (file_member(b"usr/share/log"), BIG[:70000]))
        self.old = self.room / "root.tar"
        self.old.write_bytes(tar)

    def run_program(self, image: bytes, *words: str, status: int = 0) -> bytes:
        done = subprocess.run([PROGRAM, "systemd-tmpfiles", "--create", "--now=1970-01-12T13:46:40Z", *words],
                              input=image, capture_output=True, check=False)
        self.assertEqual(done.returncode, status, done.stdout[:300])
        return done.stdout

    def test_a_root_file_system_is_changed(self):
        image = self.to_image(b"", str(self.old), "--fact", "b=boot", "--strict")
        self.assertLess(len(image), 3000)
        made = self.to_tar(self.run_program(image), str(self.old))
        with tarfile.open(fileobj=BytesIO(made)) as tar:
            members = {it.name: it for it in tar.getmembers()}
            contents = {it.name: tar.extractfile(it).read() for it in members.values() if it.isfile()}
        self.assertEqual(contents["./srv/copy"], BIG)
        self.assertEqual(contents["./usr/share/big"], BIG)
        self.assertEqual(contents["./usr/share/log"], BIG[:70000] + b"more")
        self.assertEqual(contents["./etc/tmpfiles.d/a.conf"], LINES)
        big = members["./usr/share/big"]
        self.assertEqual((big.uid, big.mtime, big.mode), (7, 9, 0o644))
        self.assertEqual(big.pax_headers["SCHILY.acl.access"],
                         "user::rw-,user:70:r--,group::r--,mask::r--,other::r--")
        self.assertEqual(big.pax_headers["PROVISION.letters"], "i")
        self.assertEqual(big.pax_headers["SCHILY.xattr.user.k"], "v")
        folder = members["./run/0123456789abcdef0123456789abcdef-boot"]
        self.assertEqual((folder.uid, folder.gid, folder.mode, folder.mtime), (70, 71, 0o1777, 1000000))

    def test_a_folder_whose_large_contents_stand_aside(self):
        folder = self.room / "folder"
        tar = archive(
            folder_member(b"./"), folder_member(b"etc"), folder_member(b"etc/tmpfiles.d"),
            (file_member(b"etc/tmpfiles.d/a.conf"), b"C /srv/copy - - - - /big\nw+ /log - - - - more\nd /run/x 0700 7 8\n"),
            (file_member(b"big"), bytes(67108000)), (file_member(b"log"), BIG), folder_member(b"srv"),
            (file_member(b"one"), b"x"), Member(b"two", b"1", target=b"one"))
        self.old.write_bytes(tar)
        self.to_image(b"", f"--folder={folder}", str(self.old), said=None)
        done = subprocess.run([PROGRAM, "systemd-tmpfiles", "--create", f"--root={folder}"], capture_output=True, check=False)
        self.assertEqual((done.returncode, done.stdout), (0, b""))
        with tarfile.open(fileobj=BytesIO(self.to_tar(b"", f"--folder={folder}"))) as made:
            sizes = {it.name: (it.size, it.type) for it in made}
            self.assertEqual(made.extractfile("./log").read(), BIG + b"more")
            self.assertEqual((made.getmember("./run/x").uid, made.getmember("./two").linkname), (7, "./one"))
        self.assertEqual(sizes["./srv/copy"], (67108000, b"0"))
        self.assertEqual(sizes["./big"], (67108000, b"0"))

    def test_an_image_is_spelled_as_the_program_spells_it(self):
        done = subprocess.run([PROGRAM, "systemd-tmpfiles", "--report"], input=WHOLE, capture_output=True, check=True)
        self.assertEqual(done.stdout, b": repeatable\n" + WHOLE)

    def test_a_stopped_run_through_archives_is_mended(self):
        image = self.to_image(b"", str(self.old), "--fact", "b=boot")
        stopped = self.run_program(image, "--stop-after=3", status=75)
        part = self.to_tar(stopped, str(self.old), said=b": stopped after 3 steps\n")
        (self.room / "part.tar").write_bytes(part)
        again = self.run_program(self.to_image(part, "--fact", "b=boot"))
        self.assertEqual(self.kept(self.to_tar(again, str(self.room / "part.tar"))),
                         self.kept(self.to_tar(self.run_program(image), str(self.old))))

    def kept(self, made: bytes) -> list:
        """Names, kinds, owners and modes of an archive, and contents but those of the file that is added to."""
        with tarfile.open(fileobj=BytesIO(made)) as tar:
            return [(it.name, it.type, it.mode, it.uid, it.gid,
                     tar.extractfile(it).read() if it.isfile() and it.name != "./usr/share/log" else None)
                    for it in tar.getmembers()]


if __name__ == "__main__":
    unittest.main()
