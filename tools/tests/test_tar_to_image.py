"""Archives made by hand and by GNU tar, and the images they give; each wanted text is written by hand."""

import base64
import os
import struct
import subprocess
import unittest

from tests.helper import TOOLS, ToolCase, archive, file_member, folder_member, image, run_tool

from tar_stream import Member, archive_end, member_head, padding


def warned(text: str) -> bytes:
    return f"tar_to_image: warning: {text}\n".encode()


def noted(text: str) -> bytes:
    return f"tar_to_image: note: {text}\n".encode()


class Kinds(ToolCase):
    def test_every_kind(self):
        tar = archive(
            folder_member(b"./", uid=1, gid=2, seconds=3),
            (file_member(b"./f", uid=1000, gid=4294967294, seconds=7), b"hello\n"),
            Member(b"./g", b"0", mode=0o6755),
            Member(b"./l", b"2", mode=0o777, target=b"f g"),
            Member(b"./p", b"6", mode=0o600),
            Member(b"./c", b"3", mode=0o666, major=1, minor=3),
            Member(b"./b", b"4", mode=0o660, major=4294967295, minor=2097152),
            Member(b"./t", b"5", mode=0o1777),
        )
        wanted = (
            b"tree-image 2\n"
            b"d / 0755 1 2 3000000,3000000,3000000,3000000 - - - -\n"
            b"b /b 0660 0 0 0,0,0,0 - - - 4294967295:2097152\n"
            b"c /c 0666 0 0 0,0,0,0 - - - 1:3\n"
            b"f /f 0644 1000 4294967294 7000000,7000000,7000000,7000000 - - - aGVsbG8K\n"
            b"f /g 6755 0 0 0,0,0,0 - - - -\n"
            b"l /l 0777 0 0 0,0,0,0 - - - f\\x20g\n"
            b"p /p 0600 0 0 0,0,0,0 - - - -\n"
            b"d /t 1777 0 0 0,0,0,0 - - - -\n"
            b"end\n")
        self.assertEqual(self.to_image(tar), wanted)

    def test_paths_come_name_by_name(self):
        tar = archive(file_member(b"a-b"), folder_member(b"a"), file_member(b"a/c"), file_member(b"a\x01"))
        wanted = image(b"d /a 0755 0 0 0,0,0,0 - - - -", b"f /a/c 0644 0 0 0,0,0,0 - - - -",
                       b"f /a\\x01 0644 0 0 0,0,0,0 - - - -", b"f /a-b 0644 0 0 0,0,0,0 - - - -")
        self.assertEqual(self.to_image(tar), wanted)

    def test_odd_names(self):
        tar = archive(file_member(b"./\xff \\\n"), file_member(b"/abs//x/./y"), folder_member(b"abs"),
                      folder_member(b"abs/x"), file_member(b"abs/" + b"n" * 255))
        wanted = image(
            b"d /abs 0755 0 0 0,0,0,0 - - - -",
            b"f /abs/" + b"n" * 255 + b" 0644 0 0 0,0,0,0 - - - -",
            b"d /abs/x 0755 0 0 0,0,0,0 - - - -",
            b"f /abs/x/y 0644 0 0 0,0,0,0 - - - -",
            b"f /\\xff\\x20\\x5c\\x0a 0644 0 0 0,0,0,0 - - - -")
        self.assertEqual(self.to_image(tar), wanted)

    def test_stamps(self):
        records = {b"mtime": b"10.123456789", b"atime": b"11.5", b"ctime": b"12",
                   b"PROVISION.birth": b"9.000001"}
        tar = archive(file_member(b"f", records=records),
                      file_member(b"g", seconds=5, records={b"ctime": b"12", b"LIBARCHIVE.creationtime": b"4"}))
        wanted = image(b"f /f 0644 0 0 11500000,9000001,12000000,10123456 - - - -",
                       b"f /g 0644 0 0 5000000,4000000,12000000,5000000 - - - -")
        self.assertEqual(self.to_image(tar), wanted)

    def test_attributes_and_letters(self):
        records = {b"SCHILY.xattr.user.b": b"x y,=\n", b"SCHILY.xattr.user.a%3D": b"",
                   b"LIBARCHIVE.xattr.user.b": b"eCB5LD0K", b"LIBARCHIVE.xattr.user.z": b"eg",
                   b"RHT.security.selinux": b"u:t", b"PROVISION.letters": b"ia"}
        wanted = image(b"f /f 0644 0 0 0,0,0,0 - security.selinux=u:t,user.a\\x3d=,"
                       b"user.b=x\\x20y\\x2c\\x3d\\x0a,user.z=z ai -")
        self.assertEqual(self.to_image(archive(file_member(b"f", records=records))), wanted)

    def test_the_later_of_two_counts(self):
        tar = archive((file_member(b"a"), b"1"), (file_member(b"./a"), b"22"))
        wanted = image(b"f /a 0644 0 0 0,0,0,0 - - - MjI=")
        self.assertEqual(self.to_image(tar, said=noted("/a: it comes twice, the later one counts")), wanted)

    def test_hard_links(self):
        records = {b"SCHILY.xattr.user.a": b"1"}
        tar = archive((file_member(b"a", uid=5, records=records), b"x"), Member(b"b", b"1", target=b"./a"))
        wanted = image(b"f /a 0644 5 0 0,0,0,0 - user.a=1 - eA==", b"f /b 0644 5 0 0,0,0,0 - user.a=1 - eA==")
        said = noted("/b: a hard link to /a, taken as an object of its own")
        self.assertEqual(self.to_image(tar, "--strict", said=said), wanted)


class Acls(ToolCase):
    def one(self, member: Member, said: bytes = b"") -> bytes:
        """The line of a member /x among account files with app = 70 and dev = 71."""
        tar = archive(
            folder_member(b"etc"), (file_member(b"etc/passwd"), b"app:x:70:1:::\n"),
            (file_member(b"etc/group"), b"dev:x:71:\n"), member)
        return self.to_image(tar, said=said).splitlines()[-2]

    def test_numbers_names_and_masks(self):
        text = b"user::rwx\nuser:9:r--\nuser:app:rw-\ngroup::r-x\t#effective:r--\ngroup:dev:--x\nmask::rw-\nother::---\n"
        line = self.one(Member(b"x", b"0", mode=0o760, records={b"SCHILY.acl.access": text}))
        self.assertEqual(line, b"f /x 0750 0 0 0,0,0,0 u:9:r--,u:70:rw-,g:71:--x,m::rw- - - -")

    def test_a_default_part(self):
        records = {b"SCHILY.acl.default": b"user::rwx,user:joe:r-x:12,group::r-x,mask::r-x,other::---"}
        line = self.one(Member(b"x", b"5", mode=0o2770, records=records))
        self.assertEqual(line, b"d /x 2770 0 0 0,0,0,0 d:u::rwx,d:u:12:r-x,d:g::r-x,d:m::r-x,d:o::--- - - -")

    def test_base_entries_alone_are_the_mode(self):
        line = self.one(file_member(b"x", records={b"SCHILY.acl.access": b"user::rw-,group::r--,other::r--"}))
        self.assertEqual(line, b"f /x 0644 0 0 0,0,0,0 - - - -")

    def test_a_base_entry_that_is_lacking_is_that_of_the_mode(self):
        line = self.one(file_member(b"x", records={b"SCHILY.acl.access": b"user:3:rwx,mask::rwx"}))
        self.assertEqual(line, b"f /x 0644 0 0 0,0,0,0 u:3:rwx,m::rwx - - -")

    def test_a_computed_mask_is_none(self):
        text = b"user::rw-,user:3:rwx,group::r--,mask::rwx,other::r--"
        records = {b"SCHILY.acl.access": text, b"PROVISION.mask": b"access"}
        self.assertEqual(self.one(file_member(b"x", records=records)), b"f /x 0644 0 0 0,0,0,0 u:3:rwx - - -")

    def test_the_kernels_form(self):
        value = struct.pack("<I" + "HHI" * 5, 2, 1, 6, 0xFFFFFFFF, 2, 4, 1000, 4, 4, 0xFFFFFFFF,
                            16, 4, 0xFFFFFFFF, 32, 0, 0xFFFFFFFF)
        line = self.one(file_member(b"x", records={b"SCHILY.xattr.system.posix_acl_access": value}))
        self.assertEqual(line, b"f /x 0640 0 0 0,0,0,0 u:1000:r--,m::r-- - - -")

    def test_the_kernels_form_counts_more_than_names_of_the_machine(self):
        value = struct.pack("<I" + "HHI" * 5, 2, 1, 6, 0xFFFFFFFF, 4, 4, 0xFFFFFFFF, 8, 4, 4, 16, 4, 0xFFFFFFFF,
                            32, 0, 0xFFFFFFFF)
        text = b"user::rw-\ngroup::r--\ngroup:sync:r--\nmask::r--\nother::---\n"
        line = self.one(file_member(b"x", records={b"SCHILY.acl.access": text,
                                                   b"SCHILY.xattr.system.posix_acl_access": value}))
        self.assertEqual(line, b"f /x 0640 0 0 0,0,0,0 g:4:r--,m::r-- - - -")

    def test_unknown_names_are_named(self):
        text = b"user::rw-,user:who:r--,group::r--,mask::r--,other::---"
        line = self.one(file_member(b"x", records={b"SCHILY.acl.access": text}),
                        said=warned("/x: the ACL entry user:who:r--, left out"))
        self.assertEqual(line, b"f /x 0640 0 0 0,0,0,0 m::r-- - - -")


class WhatAnImageCannotHold(ToolCase):
    def check(self, tar: bytes, said: bytes, *lines: bytes) -> None:
        """The image and the warnings; with --strict errors and no image."""
        self.assertEqual(self.to_image(tar, said=said), image(*lines))
        errors = said.replace(b"warning:", b"error:")
        self.assertEqual(self.to_image(tar, "--strict", said=errors, status=1), b"")

    def test_names(self):
        long = "n" * 256
        self.check(archive(file_member(long.encode())), warned(f"/{long}: a name over 255 bytes, left out"))
        self.check(archive(file_member(b"a/../b")), warned("/a/../b: the name '..' is none, left out"))

    def test_kinds(self):
        self.check(archive(Member(b"s", b"s")), warned("/s: an object of the tar type 's', left out"))
        self.check(archive(Member(b"h", b"1", target=b"none")),
                   warned("/h: a hard link to nothing before it, left out"))

    def test_targets(self):
        said = warned("/l: a link with no target or one over 4095 bytes, left out")
        self.check(archive(Member(b"l", b"2", target=b"")), said)
        self.check(archive(Member(b"l", b"2", target=b"t" * 4096)), said)

    def test_absent_parents(self):
        self.check(archive(file_member(b"a/b/c")),
                   warned("/a: absent above another object, made as a directory 0755 0 0")
                   + warned("/a/b: absent above another object, made as a directory 0755 0 0"),
                   b"d /a 0755 0 0 0,0,0,0 - - - -", b"d /a/b 0755 0 0 0,0,0,0 - - - -",
                   b"f /a/b/c 0644 0 0 0,0,0,0 - - - -")

    def test_objects_below_a_link(self):
        self.check(archive(Member(b"l", b"2", target=b"t"), folder_member(b"l/a"), file_member(b"l/a/b")),
                   warned("/l/a: it stands below /l, a link, left out")
                   + warned("/l/a/b: it stands below /l, a link, left out"),
                   b"l /l 0777 0 0 0,0,0,0 - - - t")

    def test_attributes(self):
        records = {b"SCHILY.xattr.plain": b"1", b"SCHILY.xattr.user.long": b"v" * 65537,
                   b"SCHILY.xattr.user.most": b"v" * 65536}
        self.check(archive(file_member(b"f", records=records)),
                   warned("/f: the attribute plain, left out: its name has no namespace")
                   + warned("/f: the attribute user.long, left out: its value has over 65536 bytes"),
                   b"f /f 0644 0 0 0,0,0,0 - user.most=" + b"v" * 65536 + b" - -")
        link = Member(b"l", b"2", target=b"t", records={b"SCHILY.xattr.user.a": b"1"})
        self.check(archive(link), warned("/l: the attribute user.a, left out: a link has none"),
                   b"l /l 0777 0 0 0,0,0,0 - - - t")

    def test_letters(self):
        self.check(archive(file_member(b"f", records={b"PROVISION.letters": b"azi"})),
                   warned("/f: the letters 'z', left out"), b"f /f 0644 0 0 0,0,0,0 - - ai -")
        self.check(archive(Member(b"p", b"6", mode=0o600, records={b"PROVISION.letters": b"a"})),
                   warned("/p: letters on a fifo, left out"), b"p /p 0600 0 0 0,0,0,0 - - - -")

    def test_flags(self):
        self.check(archive(file_member(b"f", records={b"SCHILY.fflags": b"schg,sappnd,uchg,nodump"})),
                   warned("/f: the flag uchg, left out"), b"f /f 0644 0 0 0,0,0,0 - - adi -")

    def test_acls(self):
        text = b"user::rwx,group::rwx,other::rwx"
        self.check(archive(file_member(b"f", records={b"SCHILY.acl.default": text})),
                   warned("/f: the default ACL of a file, left out"), b"f /f 0644 0 0 0,0,0,0 - - - -")
        self.check(archive(Member(b"l", b"2", target=b"t", records={b"SCHILY.acl.access": text})),
                   warned("/l: an ACL on a link, left out"), b"l /l 0777 0 0 0,0,0,0 - - - t")

    def test_owners_and_stamps(self):
        self.check(archive(file_member(b"f", uid=4294967295)),
                   warned("/f: the owner 4294967295, 65534 taken"), b"f /f 0644 65534 0 0,0,0,0 - - - -")
        self.check(archive(file_member(b"f", records={b"mtime": b"-1.5"})),
                   warned("/f: a stamp before 1970, 0 taken"), b"f /f 0644 0 0 0,0,0,0 - - - -")

    def test_other_records(self):
        self.check(archive(file_member(b"f", records={b"SUN.holesdata": b"1"})),
                   warned("/f: the record SUN.holesdata, left out"), b"f /f 0644 0 0 0,0,0,0 - - - -")

    def test_an_archive_without_end(self):
        whole = archive(file_member(b"f"))
        self.check(whole[:512], warned("the archive has no end; it may be cut off"),
                   b"f /f 0644 0 0 0,0,0,0 - - - -")
        self.check(whole + whole, warned("bytes after the end of the archive, left out"),
                   b"f /f 0644 0 0 0,0,0,0 - - - -")


class Damage(ToolCase):
    def refused(self, tar: bytes, text: str) -> None:
        said = f"tar_to_image: error: {text}\n".encode()
        self.assertEqual(self.to_image(tar, said=said, status=1), b"")

    def test_no_tar(self):
        self.refused(b"", "bad tar at byte 0: this is no tar")
        self.refused(b"x" * 600, "bad tar at byte 0: this is no tar")
        self.refused(b"\x1f\x8b" + bytes(600), "bad tar at byte 0: it is packed by gzip; unpack it first")

    def test_cut_off(self):
        whole = archive((file_member(b"f"), b"x" * 600))
        self.refused(whole[:700], "bad tar at byte 700: the archive is cut off")
        self.refused(whole[:1600], "bad tar at byte 1536: the archive is cut off")
        long = archive(file_member(b"n" * 150))
        self.refused(long[:1024], "bad tar at byte 1024: the archive is cut off")

    def test_a_changed_byte(self):
        whole = bytearray(archive((file_member(b"f"), b"x"), file_member(b"g")))
        whole[1024] ^= 1
        self.refused(bytes(whole), "bad tar at byte 1024: a damaged header")

    def test_a_damaged_record(self):
        whole = archive(file_member(b"f", records={b"atime": b"1"}))
        self.refused(whole.replace(b"11 atime=1\n", b"99 atime=1\n"), "bad tar at byte 0: a damaged header")
        self.refused(whole.replace(b"atime=1", b"atime=x"), "bad tar: the stamp x")

    def test_a_file_that_is_not_there(self):
        self.assertEqual(self.to_image(b"", "/none", said=None, status=1), b"")

    def test_a_root_that_is_no_directory(self):
        self.refused(archive(Member(b"./", b"2", target=b"x")), "/: a link as the root")


class Facts(ToolCase):
    RELEASE = (b'NAME="Debian"\nID=debian\n# ID=no\nVERSION_ID="12"\nVARIANT_ID=\'server\'\n'
               b'BUILD_ID="a\\"b c"\nIMAGE_ID=img\nIMAGE_VERSION=7\n')

    def facts(self, *words: str) -> list[bytes]:
        tar = archive(
            folder_member(b"etc"), folder_member(b"usr"), folder_member(b"usr/lib"),
            Member(b"etc/os-release", b"2", target=b"../usr/lib/os-release"),
            (file_member(b"usr/lib/os-release"), self.RELEASE),
            (file_member(b"etc/machine-id"), b"0123456789abcdef0123456789abcdef\n"),
            (file_member(b"etc/hostname"), b"# name\nbox.example.org\n"))
        return [line for line in self.to_image(tar, *words).splitlines() if line.startswith(b"fact ")]

    def test_of_the_tree(self):
        self.assertEqual(self.facts(), [
            b"fact A 7", b'fact B a"b\\x20c', b"fact H box.example.org", b"fact M img",
            b"fact W server", b"fact l box", b"fact m 0123456789abcdef0123456789abcdef",
            b"fact o debian", b"fact w 12"])

    def test_given_ones_count(self):
        words = ("--fact", "H=other", "--fact", "a=x86-64", "--fact", "m=", "--fact", "b=1 2")
        self.assertEqual(self.facts(*words), [
            b"fact A 7", b'fact B a"b\\x20c', b"fact H other", b"fact M img", b"fact W server",
            b"fact a x86-64", b"fact b 1\\x202", b"fact l box", b"fact o debian", b"fact w 12"])

    def test_odd_options(self):
        for word in ("q=1", "b", "=1", "b=" + "x" * 256):
            self.assertEqual(run_tool("tar_to_image.py", "--fact", word).returncode, 2)

    def test_an_uninitialized_machine_id_is_none(self):
        tar = archive(folder_member(b"etc"), (file_member(b"etc/machine-id"), b"uninitialized\n"))
        self.assertNotIn(b"fact", self.to_image(tar))


class GnuTar(ToolCase):
    def setUp(self):
        super().setUp()
        self.need("tar")
        if os.geteuid() != 0:
            self.skipTest("this is not root")

    def image_of(self, options: str) -> bytes:
        self.sh(f"tar -C root {options} -cf root.tar .")
        return self.to_image(b"", str(self.room / "root.tar"))

    def plain(self) -> None:
        try:
            os.mknod(self.room / "device", 0o20600, os.makedev(5, 1))
        except PermissionError:
            self.skipTest("devices cannot be made here")
        self.sh("mkdir -m 755 root; cd root; echo hi > f; chown 7:8 f; chmod 4711 f; mkfifo -m 640 p;"
                "ln -s ../x l; mknod -m 600 n c 5 1; touch -d @100 . f p n; touch -hd @100 l")

    PLAIN = (
        b"tree-image 2\n"
        b"d / 0755 0 0 100000000,100000000,100000000,100000000 - - - -\n"
        b"f /f 4711 7 8 100000000,100000000,100000000,100000000 - - - aGkK\n"
        b"l /l 0777 0 0 100000000,100000000,100000000,100000000 - - - ../x\n"
        b"c /n 0600 0 0 100000000,100000000,100000000,100000000 - - - 5:1\n"
        b"p /p 0640 0 0 100000000,100000000,100000000,100000000 - - - -\n"
        b"end\n")

    def test_each_format(self):
        self.plain()
        for form in ("gnu", "oldgnu", "ustar"):
            self.assertEqual(self.image_of(f"--format={form}"), self.PLAIN, form)
        self.assertEqual(self.image_of("--format=pax --pax-option=delete=atime,delete=ctime"), self.PLAIN)

    def test_long_names(self):
        for form in ("gnu", "pax"):
            self.sh("rm -rf root; mkdir -m 755 root; cd root; "
                    f"mkdir -m 755 {'d' * 200}; : > {'d' * 200}/{'e' * 200}; ln -s {'t' * 300} l;"
                    f"chmod 644 {'d' * 200}/{'e' * 200}; touch -d @0 {'d' * 200}/{'e' * 200} {'d' * 200} .;"
                    "touch -hd @0 l")
            wanted = image(
                b"d /" + b"d" * 200 + b" 0755 0 0 0,0,0,0 - - - -",
                b"f /" + b"d" * 200 + b"/" + b"e" * 200 + b" 0644 0 0 0,0,0,0 - - - -",
                b"l /l 0777 0 0 0,0,0,0 - - - " + b"t" * 300)
            self.assertEqual(self.image_of(f"--format={form} --pax-option=delete=atime,delete=ctime"
                                           if form == "pax" else f"--format={form}"), wanted)

    def test_sparse_files(self):
        self.sh("mkdir -m 755 root; cd root; truncate -s 30000 f; printf a | dd of=f bs=1 seek=8192 conv=notrunc "
                "status=none; chmod 644 f; touch -d @0 f .")
        content = base64.b64encode(bytes(8192) + b"a" + bytes(30000 - 8193))
        wanted = image(b"f /f 0644 0 0 0,0,0,0 - - - " + content)
        no_times = "--pax-option=delete=atime,delete=ctime"
        for options in ("--format=gnu -S", f"--format=pax -S --sparse-version=0.0 {no_times}",
                        f"--format=pax -S --sparse-version=0.1 {no_times}",
                        f"--format=pax -S --sparse-version=1.0 {no_times}"):
            self.assertEqual(self.image_of(options), wanted, options)

    def test_acls_and_attributes(self):
        self.need("setfacl", "setfattr")
        self.sh("mkdir -m 755 root; cd root; mkdir -m 750 d; : > f; chmod 640 f")
        trial = subprocess.run("setfacl -m u:1234:rw f && setfacl -d -m g:4321:rx d && setfattr -n user.k -v 'v w' f",
                               shell=True, cwd=self.room / "root", capture_output=True, check=False)
        if trial.returncode:
            self.skipTest("the file system has no ACLs or no user attributes")
        self.sh("touch -d @0 root/d root/f root")
        wanted = image(
            b"d /d 0750 0 0 0,0,0,0 d:u::rwx,d:g::r-x,d:g:4321:r-x,d:m::r-x,d:o::--- - - -",
            b"f /f 0640 0 0 0,0,0,0 u:1234:rw-,m::rw- user.k=v\\x20w - -")
        self.assertEqual(self.image_of("--format=pax --acls --xattrs --xattrs-include='*' "
                                       "--pax-option=delete=atime,delete=ctime"), wanted)

    def test_the_command_of_the_documents_gives_the_same_bytes(self):
        usage = (TOOLS.parent / "docs/USAGE.md").read_text()
        command = next(line.strip() for line in usage.splitlines() if line.startswith("    tar --sort=name"))
        self.sh("mkdir ROOT; echo hi > ROOT/b; ln ROOT/b ROOT/a; echo ho > ROOT/c; touch -d @5 ROOT/c; touch ROOT/b")
        for name in ("one", "two"):
            self.sh(f"export SOURCE_DATE_EPOCH=1000; {command}; mv root.tar {name}.tar;"
                    "sleep 1; touch ROOT/b; touch -a ROOT/c; chmod 600 ROOT/c; chmod 644 ROOT/c")
        self.assertEqual((self.room / "one.tar").read_bytes(), (self.room / "two.tar").read_bytes())
        lines = self.to_image((self.room / "one.tar").read_bytes(), said=None).splitlines()
        stamps = {line.split(b" ")[1]: line.split(b" ")[5] for line in lines if line.startswith(b"f ")}
        self.assertEqual(stamps, {b"/a": b",".join([b"1000000000"] * 4), b"/b": b",".join([b"1000000000"] * 4),
                                  b"/c": b",".join([b"5000000"] * 4)})

    def test_a_pipe(self):
        self.plain()
        self.sh("tar -C root -cf root.tar .")
        self.assertEqual(self.to_image((self.room / "root.tar").read_bytes()), self.PLAIN)


class Size(ToolCase):
    def test_many_files(self):
        tar = self.room / "many.tar"
        with open(tar, "wb") as made:
            for folder in range(20):
                made.write(member_head(folder_member(b"./d%02d/" % folder)))
                for number in range(1000):
                    member = file_member(b"./d%02d/f%03d" % (folder, number), size=100, seconds=5)
                    made.write(member_head(member) + bytes(100) + padding(100))
            made.write(archive_end(made.tell()))
        text = self.to_image(b"", str(tar))
        lines = text.split(b"\n")
        self.assertEqual(len(lines), 1 + 1 + 20 + 20000 + 1 + 1)
        self.assertEqual(lines[4], b"f /d00/f001 0644 0 0 5000000,5000000,5000000,5000000 - - - "
                         + b"A" * 134 + b"==")
        self.assertEqual(len(self.to_tar(text)), tar.stat().st_size)


if __name__ == "__main__":
    unittest.main()
