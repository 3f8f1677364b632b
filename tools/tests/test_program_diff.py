"""provision-image diff over the program: each kind of difference, and nothing else."""

import json
import unittest

from tests.helper import archive, file_member, folder_member
from tests.program import NOW, PROGRAM, ProgramCase

from tar_stream import Member

LINES = b"""\
d /run/app 0750 app app
f /run/app/state 0644 app app - ready
L /run/link - - - - /etc
c /run/null 0666 - - - 1:3
p /run/pipe 0600
w+ /srv/log - - - - more
z /srv/mode 0600 app app
t /srv/mode - - - - user.k=v
a+ /srv/mode - - - - u:app:r
h /srv/mode - - - - +i
w /srv/text - - - - new\\n
w+ /srv/big - - - - more
r /srv/gone
"""
WANTED = """\
+ /run/app  directory, 0750, app (70) : app (71)
+ /run/app/state  file, 0644, app (70) : app (71)
    @@ -0,0 +1 @@
    +ready
    \\ No newline at end of file
+ /run/link  link to /etc
+ /run/null  character device, 0666, root (0) : root (0), device 1:3
+ /run/pipe  fifo, 0600, root (0) : root (0)
~ /srv/big  file
    content: 4 bytes appended
- /srv/gone  file
~ /srv/log  file
    @@ -1 +1,2 @@
     one
    +more
    \\ No newline at end of file
~ /srv/mode  file
    mode 0644 -> 0600
    owner root (0) -> app (70)
    group root (0) -> app (71)
    ACL - -> u:70:r--
    attributes - -> user.k=v
    flags - -> i
~ /srv/text  file
    @@ -1,2 +1 @@
    -old
    -text
    +new
"""


def root(lines: bytes, *more) -> bytes:
    """A root with these lines of configuration."""
    return archive(
        folder_member(b"./"), folder_member(b"etc"), folder_member(b"etc/tmpfiles.d"), folder_member(b"run"),
        folder_member(b"srv"), (file_member(b"etc/passwd"), b"root:x:0:0::/:\napp:x:70:71:::\n"),
        (file_member(b"etc/group"), b"root:x:0:\napp:x:71:\n"), (file_member(b"etc/tmpfiles.d/a.conf"), lines), *more)


@unittest.skipUnless(PROGRAM, "CHECK_PROGRAM names no program")
class Diff(ProgramCase):
    def setUp(self) -> None:
        super().setUp()
        (self.room / "root.tar").write_bytes(root(
            LINES, (file_member(b"srv/gone"), b"x"), (file_member(b"srv/log"), b"one\n"),
            (file_member(b"srv/mode"), b"x"), (file_member(b"srv/text"), b"old\ntext\n"),
            (file_member(b"srv/big"), bytes(2 << 20)), Member(b"srv/same", b"2", mode=0o777, target=b"/etc")))

    def diff(self, *words: str, status: int = 0) -> tuple[str, str]:
        return self.command("diff", "--now", NOW, "--runs", "remove create", *words, "root.tar", status=status)

    def test_each_kind_of_difference(self):
        output, errors = self.diff()
        self.assertEqual(output, WANTED)
        self.assertEqual(errors, "provision-image: 10 paths would differ: 5 made, 1 removed, 4 changed\n")
        self.assertEqual(sorted(it.name for it in self.room.iterdir()), ["root.tar"])

    def test_the_status(self):
        self.diff("--exit-code", status=1)
        self.command("diff", "--exit-code", "--runs", "clean", "root.tar")

    def test_objects(self):
        rows = [json.loads(row) for row in self.diff("--json")[0].splitlines()]
        self.assertEqual([(row["change"], row["path"]) for row in rows],
                         [({"+": "made", "-": "removed", "~": "changed"}[line[0]], line.split("  ")[0][2:])
                          for line in WANTED.splitlines() if line[0] != " "])
        mode = next(row for row in rows if row["path"] == "/srv/mode")
        self.assertEqual(mode["fields"], ["mode", "owner", "group", "ACL", "attributes", "flags"])
        self.assertEqual((mode["before"]["mode"], mode["after"]["mode"]), ("0644", "0600"))

    def test_a_finished_root_has_no_difference(self):
        (self.room / "root.tar").write_bytes(root(LINES.replace(b"w+ /srv/log - - - - more\n", b"")
                                                  .replace(b"w+ /srv/big - - - - more\n", b"")))
        self.command("apply", "--now", NOW, "root.tar", "new.tar")
        output, errors = self.command("diff", "--exit-code", "new.tar")
        self.assertEqual((output, errors), ("", "provision-image: 0 paths would differ\n"))

    def test_messages_and_their_status(self):
        (self.room / "root.tar").write_bytes(root(b"d /run/app 0750 nobody\nf^ /etc/hosts - - - - hosts\n"))
        errors = self.command("diff", "root.tar", status=1)[1]
        self.assertTrue(errors.startswith("/etc/tmpfiles.d/a.conf:1: unknown user 'nobody'\n    d /run/app"), errors)
        self.assertIn("\nprovision-image: 1 error, 1 note\n", errors)
        (self.room / "root.tar").write_bytes(root(b"d /etc/passwd/x\n"))
        self.assertIn(":1: /etc/passwd is not a directory, so ", self.command("diff", "root.tar", status=1)[1])
        (self.room / "root.tar").write_bytes(root(b"f^ /etc/hosts - - - - hosts\n"))
        self.command("diff", "root.tar")
        self.command("diff", "--strict", "root.tar", status=1)

    def test_what_cannot_run(self):
        errors = self.command("diff", "none.tar", status=2)[1]
        self.assertEqual(len(errors.splitlines()), 1)
        self.assertIn("none.tar", errors)


if __name__ == "__main__":
    unittest.main()
