"""Roots in and out: archives plain and packed, pipes, folders, hard links, sparse files, and what goes wrong."""

import bz2
import gzip
import lzma
import os
import sys
import tarfile
import unittest
from base64 import b64encode

from tests.builder_helper import TOOL, BuilderCase, shared_names, unpack
from tests.helper import archive, file_member, folder_member, image, run_tool
from tests.test_image_to_tar import WHOLE

from tar_stream import Member

BIG = bytes(range(256)) * 3000
PLAIN = archive(
    folder_member(b"./", seconds=5), folder_member(b"./etc/", seconds=6),
    (file_member(b"./etc/passwd", seconds=7), b"root:x:0:0::/:/bin/sh\n"),
    (file_member(b"./big", uid=3, gid=4, seconds=8), BIG), Member(b"./link", b"2", mode=0o777, target=b"big", seconds=9))
PACKERS = {".gz": gzip, ".bz2": bz2, ".xz": lzma}


class Archives(BuilderCase):
    def test_an_archive_comes_back_as_it_was(self):
        old = self.put_file("root.tar", PLAIN)
        self.done("apply", old, "new.tar")
        self.assertEqual(unpack(self.read("new.tar")), unpack(PLAIN))
        self.done("apply", "new.tar", "again.tar")
        self.assertEqual(self.read("again.tar"), self.read("new.tar"))

    def test_each_packing_is_read_and_written(self):
        self.put_file("root.tar", PLAIN)
        self.done("apply", "root.tar", "new.tar")
        for ending, pack in PACKERS.items():
            self.put_file("root.tar" + ending, pack.compress(PLAIN))
            self.done("apply", "root.tar" + ending, "new.tar" + ending)
            self.assertEqual(pack.decompress(self.read("new.tar" + ending)), self.read("new.tar"), ending)
            self.assertEqual(self.done("apply", "-", "-", given=pack.compress(PLAIN)), self.read("new.tar"), ending)

    def test_zstd(self):
        self.need("zstd")
        self.put_file("root.tar", PLAIN)
        self.sh("zstd -q root.tar")
        self.done("apply", "root.tar.zst", "new.tar.zst")
        self.done("apply", "root.tar", "new.tar")
        self.sh("zstd -qd new.tar.zst -o unpacked.tar; cmp unpacked.tar new.tar")
        self.assertEqual(self.done("apply", "-", "-", given=self.read("root.tar.zst")), self.read("new.tar"))

    def test_the_same_input_gives_the_same_bytes(self):
        records = {b"atime": b"11.5", b"ctime": b"12.5", b"mtime": b"10.25"}
        one = archive(folder_member(b"./"), (file_member(b"a", records=records), b"x"))
        two = archive(folder_member(b"./"), (file_member(b"a", records={b"mtime": b"10.25"}), b"x"))
        for name, data in (("one", one), ("two", two)):
            self.put_file(name + ".tar", data)
            for ending in (".tar", ".tar.gz", ".tar.xz", ".tar.bz2"):
                self.done("apply", name + ".tar", f"{name}-new{ending}", "--now=2026-01-01T00:00:00Z")
        for ending in (".tar", ".tar.gz", ".tar.xz", ".tar.bz2"):
            self.assertEqual(self.read("one-new" + ending), self.read("two-new" + ending), ending)
        self.assertEqual(self.read("one-new.tar.gz")[:9], b"\x1f\x8b\x08\0\0\0\0\0\0")
        with tarfile.open(self.room / "one-new.tar") as tar:
            self.assertEqual({key for it in tar for key in it.pax_headers}, {"mtime"})
            self.assertEqual({(it.uname, it.gname) for it in tar.getmembers()}, {("", "")})

    def test_all_that_an_image_holds_comes_back(self):
        self.put_file("root.tar", self.to_tar(WHOLE))
        self.done("apply", "root.tar", "new.tar")
        wanted = [line.split(b" ")[:5] + line.split(b" ")[6:] for line in WHOLE.splitlines()[2:-1]]
        made = self.to_image(self.read("new.tar"), "--strict")
        self.assertEqual([line.split(b" ")[:5] + line.split(b" ")[6:] for line in made.splitlines()[1:-1]], wanted)

    def test_acls_are_there_as_attributes_too(self):
        self.put_file("root.tar", self.to_tar(image(b"d /d 0750 0 0 0,0,0,0 u:7:rwx,d:u::rwx,d:g::---,d:o::--x - - -")))
        self.done("apply", "root.tar", "new.tar")
        with tarfile.open(self.room / "new.tar") as tar:
            records = tar.getmember("./d").pax_headers
        self.assertEqual(records["SCHILY.acl.access"], "user::rwx,user:7:rwx,group::r-x,mask::rwx,other::---")
        self.assertEqual(records["SCHILY.xattr.system.posix_acl_access"].encode("utf-8", "surrogateescape"), (
            b"\2\0\0\0" b"\1\0\7\0\xff\xff\xff\xff" b"\2\0\7\0\7\0\0\0" b"\4\0\5\0\xff\xff\xff\xff"
            b"\x10\0\7\0\xff\xff\xff\xff" b"\x20\0\0\0\xff\xff\xff\xff"))

    def test_sparse_files_are_reported(self):
        self.need("tar")
        self.sh("mkdir root; truncate -s 1000000 root/hole; tar --sparse -C root -cf root.tar .")
        it = self.run_it("apply", "root.tar", "new.tar")
        self.assertEqual(it.returncode, 0)
        self.assertIn("/hole: note: a sparse file", it.stderr.decode())
        self.assertEqual(unpack(self.read("new.tar"))["/hole"].content, bytes(1000000))


class HardLinks(BuilderCase):
    ROOT = archive(folder_member(b"./"), (file_member(b"a", seconds=5), BIG), Member(b"b", b"1", target=b"a"),
                   folder_member(b"d"), Member(b"d/c", b"1", target=b"./a"), (file_member(b"z"), BIG))

    def test_they_come_back(self):
        self.put_file("root.tar", self.ROOT)
        self.done("apply", "root.tar", "new.tar")
        things = unpack(self.read("new.tar"))
        self.assertEqual(shared_names(things), [["/a", "/b", "/d/c"]])
        self.assertEqual(things["/a"].content, BIG)
        self.assertLess(len(self.read("new.tar")), 3 * len(BIG))

    def test_a_changed_name_parts_from_the_others(self):
        self.set_program("#!/bin/sh\nsed 's:^f /b 0644:f /b 0600:'\n")
        self.put_file("root.tar", self.ROOT)
        it = self.run_it("apply", "root.tar", "new.tar")
        self.assertIn("/b: note: it was a hard link", it.stderr.decode())
        things = unpack(self.read("new.tar"))
        self.assertEqual(shared_names(things), [["/a", "/d/c"]])
        self.assertEqual((things["/b"].mode, things["/b"].content, things["/a"].mode), (0o600, BIG, 0o644))

    def test_names_that_changed_alike_stay_together(self):
        self.set_program("#!/bin/sh\nsed 's:^\\(f /[ab]\\) 0644 0 0 [0-9,]*:\\1 0600 0 0 0,0,0,9000000:;"
                         "s:^\\(f /d/c\\) 0644 0 0 [0-9,]*:\\1 0600 0 0 0,0,0,8000000:'\n")
        self.put_file("root.tar", self.ROOT)
        self.done("apply", "root.tar", "new.tar")
        things = unpack(self.read("new.tar"))
        self.assertEqual(shared_names(things), [["/a", "/b", "/d/c"]])
        self.assertEqual((things["/a"].mode, things["/a"].mtime), (0o600, 9))

    def test_a_name_that_gets_the_same_bytes_again(self):
        text = b"t" * 300
        self.put_file("root.tar", archive(folder_member(b"./"), (file_member(b"a"), text), Member(b"b", b"1", target=b"a")))
        self.set_program("#!/bin/sh\nsed 's:^\\(f /b .*\\) [^ ]*$:\\1 %s:'\n" % b64encode(text).decode())
        it = self.run_it("apply", "root.tar", "new.tar")
        self.assertEqual((it.returncode, it.stderr), (0, b""))
        self.assertEqual(shared_names(unpack(self.read("new.tar"))), [["/a", "/b"]])
        self.done("layer", "root.tar", "layer.tar")
        self.assertEqual(unpack(self.read("layer.tar")), {})

    def test_a_configuration_file_with_two_names(self):
        conf = archive(folder_member(b"./"), folder_member(b"etc"), folder_member(b"etc/tmpfiles.d"),
                       (file_member(b"etc/copy"), b"#" * 1000), Member(b"etc/tmpfiles.d/a.conf", b"1", target=b"etc/copy"))
        self.put_file("root.tar", conf)
        self.set_program("#!/bin/sh\ncat > given\ncat given\n")
        self.done("apply", "root.tar", "new.tar")
        self.assertNotIn(b"provision-large-file", self.read("given"))
        self.assertEqual(shared_names(unpack(self.read("new.tar"))), [["/etc/copy", "/etc/tmpfiles.d/a.conf"]])


class LargeContents(BuilderCase):
    def test_they_stand_aside(self):
        self.set_program("#!/bin/sh\ncat > given\ncat given\n")
        lots = archive(folder_member(b"./"), *((file_member(b"f%d" % n), bytes([n]) * 2000000) for n in range(20)))
        self.put_file("root.tar", lots)
        self.done("apply", "root.tar", "new.tar")
        self.assertLess(len(self.read("given")), 4000)
        self.assertEqual(unpack(self.read("new.tar")), unpack(lots))

    def test_contents_that_look_like_a_marker(self):
        odd = [b"provision-large-file number 0 length 5\n", b"provision-large-file ", b"provision-large-file number 1"]
        root = archive(folder_member(b"./"), *((file_member(b"o%d" % n), it) for n, it in enumerate(odd)))
        self.put_file("root.tar", root)
        self.done("apply", "root.tar", "new.tar")
        self.assertEqual(unpack(self.read("new.tar")), unpack(root))

    def test_files_that_runs_name_are_read(self):
        self.set_program("#!/bin/sh\ncat > given\ncat given\n")
        self.put_file("root.tar", archive(folder_member(b"./"), (file_member(b"x.conf"), b"#" * 1000)))
        self.done("apply", "root.tar", "new.tar", "--runs", "create /x.conf")
        self.assertNotIn(b"provision-large-file", self.read("given"))


class Folders(BuilderCase):
    def prepare(self, tar: bytes) -> None:
        self.put_file("root.tar", tar)
        done = run_tool("tar_to_image.py", f"--folder={self.room / 'folder'}", str(self.room / "root.tar"))
        self.assertEqual(done.returncode, 0, done.stderr)

    def test_a_folder_in_and_out(self):
        self.prepare(PLAIN)
        self.done("apply", "folder", "new.tar")
        self.assertEqual(unpack(self.read("new.tar")), unpack(PLAIN))
        self.done("apply", "folder", "made")
        self.done("apply", "made", "again.tar")
        self.assertEqual(self.read("again.tar"), self.read("new.tar"))
        self.done("apply", "root.tar", "other/")
        self.sh("diff -r made other")

    def test_hard_links_in_a_folder(self):
        self.prepare(HardLinks.ROOT)
        self.done("apply", "folder", "made")
        self.assertEqual(os.stat(self.room / "made/tree/a").st_nlink, 3)
        self.done("apply", "made", "new.tar")
        self.assertEqual(shared_names(unpack(self.read("new.tar"))), [["/a", "/b", "/d/c"]])

    def test_large_contents_of_a_folder(self):
        self.prepare(archive(folder_member(b"./"), (file_member(b"f"), bytes(67108865)), (file_member(b"g"), b"few")))
        self.assertLess((self.room / "folder/tree/f").stat().st_size, 200)
        self.done("apply", "folder", "new.tar")
        self.assertEqual(len(unpack(self.read("new.tar"))["/f"].content), 67108865)

    def test_nobody_else_reads_it(self):
        self.prepare(PLAIN)
        self.done("apply", "folder", "made")
        modes = {path.name: path.stat().st_mode & 0o777 for path in [self.room / "made", *(self.room / "made").rglob("*")]}
        self.assertEqual(modes, {"made": 0o700, "manifest": 0o600, "tree": 0o700, "etc": 0o700, "passwd": 0o600,
                                 "big": 0o600})

    def test_a_folder_that_is_not_empty(self):
        self.prepare(PLAIN)
        self.fails("apply", "root.tar", "folder", said="folder: the folder is not empty")
        self.fails("apply", "root.tar", "folder/", said="folder: the folder is not empty")

    def test_a_directory_that_is_not_prepared(self):
        (self.room / "some").mkdir()
        self.fails("apply", "some", "new.tar", said="some: a directory without `tree` is not a prepared folder; "
                                                    "`tar_to_image --folder` makes one of an archive")


class Faults(BuilderCase):
    def kept(self, *words: str, said: str, given: bytes = b"") -> None:
        """It fails, and the output is as before, with nothing beside it."""
        self.put_file("new.tar", b"old")
        before = sorted(os.listdir(self.room))
        self.fails(*words, said=said, given=given)
        self.assertEqual(self.read("new.tar"), b"old")
        self.assertEqual(sorted(os.listdir(self.room)), before)

    def test_inputs(self):
        self.kept("apply", "none.tar", "new.tar", said="none.tar: No such file or directory")
        self.put_file("bad.tar", b"x" * 600)
        self.kept("apply", "bad.tar", "new.tar", said="bad.tar: bad tar at byte 0: this is no tar")
        self.kept("apply", "-", "new.tar", given=b"", said="standard input: bad tar at byte 0: this is no tar")
        self.put_file("cut.tar", PLAIN[:len(PLAIN) - 20480])
        self.kept("apply", "cut.tar", "new.tar",
                  said=f"cut.tar: bad tar at byte {len(PLAIN) - 20480}: the archive is cut off")
        self.put_file("cut.tar.gz", gzip.compress(PLAIN)[:-20])
        self.kept("apply", "cut.tar.gz", "new.tar", said="cut.tar.gz: the compressed data is damaged or cut off: "
                  "Compressed file ended before the end-of-stream marker was reached")

    def test_programs(self):
        self.put_file("root.tar", PLAIN)
        words = f"{self.program} systemd-sysusers --now=1970-01-01T00:00:00.000000Z"
        for script, why in (("exit 66", "it takes the input for no tree image"), ("kill -9 $$", "it was ended by signal 9"),
                            ("echo ': usage'; exit 1", "these arguments are not valid (usage)"),
                            ("exit 0", "it ended with status 0 and no image")):
            self.set_program(f"#!/bin/sh\ncat > /dev/null\n{script}\n")
            self.kept("apply", "root.tar", "new.tar", "--now=1970-01-01T00:00:00Z",
                      said=f"{words.rsplit(' ', 1)[0]}: {why}")
        self.set_program("#!/bin/sh\ncat > /dev/null\necho 'tree-image 2'\n")
        self.kept("apply", "root.tar", "new.tar",
                  said="the program gave an image that cannot be read: bad image at line 2: Truncated")
        self.program = self.room / "no-such"
        self.kept("apply", "root.tar", "new.tar", said=f"{self.program}: no program is there")

    def test_outputs(self):
        self.put_file("root.tar", PLAIN)
        self.kept("apply", "root.tar", "none/new.tar", said="none/new.tar: No such file or directory")
        self.sh("mkdir new")
        odd = archive(folder_member(b"./"), (file_member(b"\xff"), b""))
        self.put_file("odd.tar", odd)
        self.kept("apply", "odd.tar", "new", said="new: /\\xff: a name that is not UTF-8; the program reads none in a folder")

    @unittest.skipUnless(os.path.exists("/dev/full"), "there is no /dev/full")
    def test_a_full_disk(self):
        self.put_file("root.tar", PLAIN)
        self.fails("apply", "root.tar", "/dev/full", said="/dev/full: No space left on device")

    def test_words(self):
        self.put_file("root.tar", PLAIN)
        for words, said in (
            (("--runs", "creat"), "--runs: `creat` is neither a tool, a phase, a prefix nor a configuration file"),
            (("--runs", "boot"), "--runs: `boot` names no phase: create, remove, clean or purge"),
            (("--runs", "sysusers create"), "--runs: sysusers takes configuration files only"),
            (("--now", "soon"), "argument --now: 'soon' is not a time such as 2026-01-01T00:00:00Z "
                                "(see provision-image apply --help)"),
        ):
            self.kept("apply", "root.tar", "new.tar", *words, said=said)

    def test_what_an_image_cannot_hold(self):
        self.put_file("root.tar", archive(folder_member(b"./"), Member(b"s", b"s")))
        it = self.run_it("apply", "root.tar", "new.tar")
        self.assertEqual((it.returncode, it.stderr.decode()), (
            0, "/s: warning: an object of the tar type 's', left out\nprovision-image: 1 warning, no errors\n"))
        self.fails("apply", "--strict", "root.tar", "other.tar", said=(
            "root.tar: 1 things that a tree image cannot hold, which --strict makes an error; the first: "
            "/s: an object of the tar type 's', left out"))
        self.assertFalse((self.room / "other.tar").exists())

    def test_an_existing_output_is_replaced(self):
        self.put_file("root.tar", PLAIN)
        self.put_file("new.tar", b"old")
        os.symlink("new.tar", self.room / "name.tar")
        self.done("apply", "root.tar", "name.tar")
        self.assertTrue((self.room / "name.tar").is_symlink())
        self.assertEqual(unpack(self.read("new.tar")), unpack(PLAIN))
        self.done("apply", "root.tar", "root.tar")
        self.assertEqual(self.read("root.tar"), self.read("new.tar"))


    def test_the_mode_of_an_output(self):
        self.put_file("root.tar", PLAIN)
        for mask, mode in (("022", 0o644), ("077", 0o600)):
            self.sh(f"umask {mask}; rm -f new.tar; {sys.executable} {TOOL} --program {self.program} apply root.tar new.tar")
            self.assertEqual((self.room / "new.tar").stat().st_mode & 0o777, mode)

    def test_an_output_that_is_closed(self):
        self.put_file("root.tar", PLAIN)
        self.sh(f"{{ {sys.executable} {TOOL} --program {self.program} apply root.tar - 2> said || echo $? > status; }} | :")
        self.assertEqual(self.read("status"), b"2\n")
        self.assertEqual(self.read("said"), b"provision-image: error: standard output was closed\n")


class Times(BuilderCase):
    def time_given(self, *words: str, env: dict[str, str] | None = None) -> str:
        self.set_program("#!/bin/sh\nfor word; do case $word in --now=*) echo \"$word\" > time;; esac; done\ncat\n")
        self.put_file("root.tar", PLAIN)
        self.done("apply", "root.tar", "new.tar", *words, env={"SOURCE_DATE_EPOCH": "", **(env or {})})
        return self.read("time").decode().strip()

    def test_where_the_time_comes_from(self):
        self.assertEqual(self.time_given("--now=2026-01-02T03:04:05.5Z"), "--now=2026-01-02T03:04:05.500000Z")
        self.assertEqual(self.time_given("--now=2026-01-02T03:04:05+01:00"), "--now=2026-01-02T02:04:05.000000Z")
        self.assertEqual(self.time_given(env={"SOURCE_DATE_EPOCH": "86400"}), "--now=1970-01-02T00:00:00.000000Z")
        self.assertEqual(self.time_given("--now=2026-01-01T00:00:00Z", env={"SOURCE_DATE_EPOCH": "86400"}),
                         "--now=2026-01-01T00:00:00.000000Z")
        self.assertGreater(self.time_given(), "--now=2024")

    def test_an_odd_epoch(self):
        self.put_file("root.tar", PLAIN)
        it = self.run_it("apply", "root.tar", "new.tar", env={"SOURCE_DATE_EPOCH": "soon"})
        self.assertEqual((it.returncode, it.stderr.decode()), (
            2, "provision-image: error: SOURCE_DATE_EPOCH is not a number of seconds: 'soon'\n"))


class Facts(BuilderCase):
    def facts(self, *words: str) -> list[str]:
        self.set_program("#!/bin/sh\ncat > given\ncat given\n")
        self.put_file("root.tar", archive(
            folder_member(b"./"), folder_member(b"etc"), (file_member(b"etc/os-release"), b"ID=debian\nVERSION_ID=13\n"),
            (file_member(b"etc/machine-id"), b"0123456789abcdef0123456789abcdef\n")))
        self.done("apply", "root.tar", "new.tar", *words)
        return [line for line in self.read("given").decode().splitlines() if line.startswith("fact")]

    def test_of_the_root_and_given(self):
        own = ["fact m 0123456789abcdef0123456789abcdef", "fact o debian", "fact w 13"]
        self.assertEqual(self.facts(), own)
        self.assertEqual(self.facts("--fact", "b=1", "--fact", "w="), ["fact b 1", *own[:2]])


class Interrupts(BuilderCase):
    def test_a_signal_takes_away_what_was_begun(self):
        self.set_program("#!/bin/sh\nkill -TERM $PPID\nsleep 5\n")
        self.put_file("root.tar", PLAIN)
        self.put_file("new.tar", b"old")
        self.fails("apply", "root.tar", "new.tar", said="interrupted")
        self.assertEqual(self.read("new.tar"), b"old")


if __name__ == "__main__":
    unittest.main()
