"""provision-image over the built program: drawn roots, layers, numbers of older roots, and exit statuses.

Skipped where CHECK_PROGRAM names no program.
"""

import json
import random
import tarfile
import unittest
from io import BytesIO
from pathlib import Path

from tests.builder_helper import BuilderCase, shared_names, unpack
from tests.helper import archive, file_member, folder_member
from tests.program import PROGRAM

from tar_stream import Member

NOW = "--now=2026-01-01T00:00:00Z"
FORMS = ("d /srv/{a} 0750 app app", "d /srv/{a}/{b} 1777 - -", "f+ /srv/{a} 0640 app - - some text of {b}",
         "f+ /srv/{b}/long - - - - " + "x" * 300, "L+ /srv/{a} - - - - {b}", "R /srv/{b}", "r /srv/{a}",
         "z /srv/{a} 0711 app 4", "Z /srv/{b} 0700 - app", "C+ /srv/{a} - - - - /usr/share/big",
         "a+ /srv/{a} - - - - u:app:r-x", "t /srv/{b} - - - - user.k={a}", "h /srv/{b} - - - - +i", "D= /srv/{a}",
         "p+ /srv/{b} 0600", "w /srv/{a} - - - - new {b}")
NAMES = ("a", "b", "c", "link", "hard")
BIG = bytes(range(256)) * 2000
USERS = b'u app - "An app" /srv/app\ng extra -\nm app extra\n'


def drawn_root(seed: int) -> bytes:
    """A root with drawn objects below /srv and drawn lines about them."""
    draw = random.Random(seed)
    lines = "".join(draw.choice(FORMS).format(a=draw.choice(NAMES), b=draw.choice(NAMES)) + "\n"
                    for _ in range(draw.randrange(0, 7)))
    srv = [folder_member(b"srv/a"), (file_member(b"srv/a/x", uid=9), b"x" * 400), folder_member(b"srv/a/deep"),
           (file_member(b"srv/b"), b"some text of c"), (file_member(b"srv/c", uid=7), BIG),
           Member(b"srv/link", b"2", mode=0o777, target=b"a"), Member(b"srv/hard", b"1", target=b"srv/c")]
    kept = [it for it in srv[3:] if draw.random() < 0.8 or it is srv[4]]
    return archive(
        folder_member(b"./"), folder_member(b"etc"), (file_member(b"etc/passwd"), b"root:x:0:0::/:/bin/sh\n"),
        (file_member(b"etc/group"), b"root:x:0:\nadm:x:4:\n"), folder_member(b"etc/sysusers.d"),
        (file_member(b"etc/sysusers.d/a.conf"), USERS if draw.random() < 0.7 else b"u app 70\n"),
        folder_member(b"etc/tmpfiles.d"), (file_member(b"etc/tmpfiles.d/a.conf"), lines.encode()), folder_member(b"srv"),
        *srv[:3], *kept, folder_member(b"usr"), folder_member(b"usr/share"), (file_member(b"usr/share/big"), BIG))


@unittest.skipUnless(PROGRAM, "CHECK_PROGRAM names no program")
class ProgramCase(BuilderCase):
    def setUp(self) -> None:
        super().setUp()
        self.program = Path(PROGRAM)

    def root(self, name: str, *files: tuple[str, str]) -> str:
        """An archive with configuration and account files of these paths and texts."""
        folders = ("etc", "etc/sysusers.d", "etc/tmpfiles.d", "usr", "usr/lib", "usr/lib/sysusers.d")
        return self.put_file(name, archive(
            folder_member(b"./"), *(folder_member(it.encode()) for it in folders),
            *((file_member(path.encode()), text.encode()) for path, text in files)))


class Drawn(ProgramCase):
    """Laws over drawn roots, of phases that make, adjust and take away."""

    SEEDS = range(12)

    def test_layers_and_differences(self):
        empty = 0
        for seed in self.SEEDS:
            with self.subTest(seed=seed):
                empty += self.check(drawn_root(seed))
        self.assertLess(empty, len(self.SEEDS) // 2)

    def check(self, root: bytes) -> bool:
        """The laws over one root; whether the runs change nothing in it."""
        self.put_file("root.tar", root)
        words = NOW, "--runs", "sysusers, remove create"
        self.assertIn(self.run_it("apply", "root.tar", "new.tar", *words).returncode, (0, 1))
        self.assertIn(self.run_it("layer", "root.tar", "layer.tar", *words).returncode, (0, 1))
        new, layer = unpack(self.read("new.tar")), self.read("layer.tar")
        made = unpack(root, layer)
        self.assertEqual({path: it.essence() for path, it in made.items()}, {path: it.essence() for path, it in new.items()})
        self.assertEqual(shared_names(made), shared_names(new))
        with tarfile.open(fileobj=BytesIO(layer)) as tar:
            is_empty = not tar.getmembers()
        self.assertEqual(not self.run_it("diff", "root.tar", *words).stdout, is_empty)
        return is_empty

    def test_a_second_run_changes_nothing(self):
        self.root("root.tar", ("etc/passwd", ""), ("etc/group", "adm:x:4:\n"), ("etc/sysusers.d/a.conf", USERS.decode()),
                  ("etc/tmpfiles.d/a.conf", "d /srv/a 0750 app app\nf+ /srv/long - - - - " + "x" * 300
                   + "\nL+ /srv/l - - - - a\nC /srv/c - - - - /etc/tmpfiles.d\na+ /srv/a - - - - u:app:rwx\n"))
        self.done("apply", "root.tar", "new.tar", NOW)
        self.assertEqual(self.done("diff", "--exit-code", "new.tar"), b"")
        self.done("apply", "new.tar", "again.tar", "--now=2026-01-02T00:00:00Z")
        self.assertEqual({path: it.essence() for path, it in unpack(self.read("again.tar")).items()},
                         {path: it.essence() for path, it in unpack(self.read("new.tar")).items()})
        self.done("layer", "new.tar", "layer.tar")
        self.assertEqual(unpack(self.read("layer.tar")), {})

    def test_the_same_bytes_each_time_and_in_each_form(self):
        self.put_file("root.tar", drawn_root(5))
        for name in ("one.tar", "two.tar"):
            self.run_it("apply", "root.tar", name, NOW)
        self.assertEqual(self.read("one.tar"), self.read("two.tar"))
        self.run_it("apply", "root.tar", "folder/", NOW)
        self.done("apply", "folder", "three.tar", NOW, "--runs", "create --prefix=/none")
        self.assertEqual(self.read("three.tar"), self.read("one.tar"))


class Runs(ProgramCase):
    def test_the_order_of_the_runs(self):
        self.root("root.tar", ("etc/sysusers.d/a.conf", "u app 70\n"), ("etc/tmpfiles.d/a.conf", "d /srv/a - app app\n"))
        self.done("apply", "root.tar", "new.tar", NOW)
        self.assertEqual(unpack(self.read("new.tar"))["/srv/a"].owner, (70, 70))
        self.done("apply", "root.tar", "other.tar", NOW, "--runs", "create boot, sysusers", status=1)
        self.assertNotIn("/srv/a", unpack(self.read("other.tar")))

    def test_purge_and_clean(self):
        self.root("root.tar", ("etc/tmpfiles.d/a.conf", "d$ /srv/a - - - 1d\n"), ("x.conf", "d$ /srv/b\n"))
        self.done("apply", "root.tar", "made.tar", "--now=2026-01-01T00:00:00Z", "--runs", "create, create /x.conf")
        self.assertLess({"/srv/a", "/srv/b"}, set(unpack(self.read("made.tar"))))
        self.done("apply", "made.tar", "purged.tar", NOW, "--runs", "purge /x.conf")
        things = unpack(self.read("purged.tar"))
        self.assertIn("/srv/a", things)
        self.assertNotIn("/srv/b", things)


class Statuses(ProgramCase):
    """Each exit status once, as the manual page lists them."""

    def test_well(self):
        self.root("root.tar", ("etc/tmpfiles.d/a.conf", "d /srv/a\n"))
        it = self.run_it("apply", "root.tar", "new.tar", NOW)
        self.assertEqual((it.returncode, it.stderr), (0, b""))

    def test_a_line_that_is_invalid_or_refused(self):
        for line in ("d /srv/a - nosuch", "d /etc/passwd/a"):
            self.root("root.tar", ("etc/passwd", ""), ("etc/tmpfiles.d/a.conf", f"{line}\nd /srv/fine\n"))
            self.done("apply", "root.tar", "new.tar", NOW, status=1)
            self.assertIn("/srv/fine", unpack(self.read("new.tar")))

    def test_what_every_root_meets(self):
        self.root("root.tar", ("etc/tmpfiles.d/a.conf", "f^ /etc/motd - - - - login.motd\nx /tmp/x-%b\n"))
        it = self.run_it("apply", "root.tar", "new.tar", NOW)
        self.assertEqual(it.returncode, 0)
        self.assertIn("2 notes", it.stderr.decode())
        self.done("apply", "root.tar", "new.tar", NOW, "--strict", status=1)

    def test_a_difference(self):
        self.root("root.tar", ("etc/tmpfiles.d/a.conf", "d /srv/a\n"))
        self.done("diff", "root.tar", NOW)
        self.done("diff", "--exit-code", "root.tar", NOW, status=1)

    def test_it_could_not_run(self):
        self.fails("apply", "none.tar", "new.tar", said="none.tar: No such file or directory")

    def test_messages_of_each_run_as_objects(self):
        self.root("root.tar", ("etc/sysusers.d/a.conf", "u 5app -\n"), ("etc/tmpfiles.d/a.conf", "d /srv/a - nosuch\n"))
        it = self.run_it("apply", "--json", "root.tar", "new.tar", NOW)
        said = [json.loads(line) for line in it.stderr.splitlines()]
        self.assertEqual([(one.get("file"), one.get("line")) for one in said[:2]],
                         [("/etc/sysusers.d/a.conf", 1), ("/etc/tmpfiles.d/a.conf", 1)])


class Numbers(ProgramCase):
    OLD = (("etc/passwd", "web:x:990:990::/:/n\ngames:x:5:60:games:/usr/games:/n\n"),
           ("etc/group", "web:x:990:\napp:x:55:\ngames:x:60:\n"))

    def accounts(self, name: str) -> tuple[dict[str, list[str]], dict[str, list[str]]]:
        """The entries of passwd and group by name."""
        things = unpack(self.read(name))
        files = (things[path].content.decode().splitlines() for path in ("/etc/passwd", "/etc/group"))
        passwd, group = ({line.split(":")[0]: line.split(":")[2:] for line in lines} for lines in files)
        return passwd, group

    def applied(self, *files: tuple[str, str], words: tuple[str, ...] = (), said: str = "") -> tuple:
        """The accounts of a root with --ids-from, whose messages are these."""
        self.root("old.tar", *self.OLD)
        self.root("root.tar", *files)
        it = self.run_it("apply", "--ids-from", "old.tar", NOW, "root.tar", "new.tar", *words)
        self.assertEqual((it.returncode, it.stderr.decode()), (0, said))
        things = unpack(self.read("new.tar"))
        self.assertEqual([path for path in things if "ids-from" in path], [])
        return self.accounts("new.tar")

    def test_numbers_of_the_older_root(self):
        passwd, group = self.applied(
            ("etc/sysusers.d/a.conf", 'u new -\nu web - "The web" /srv/web\nu! app -\nm games web\ng empty -\n'))
        self.assertEqual(passwd["web"], ["990", "990", "The web", "/srv/web", "/usr/sbin/nologin"])
        self.assertEqual(group["web"], ["990", "games"])
        self.assertEqual((group["app"], passwd["app"][:2]), (["55", ""], ["55", "55"]))
        self.assertEqual((passwd["games"][:2], group["games"]), (["5", "60"], ["60", ""]))
        self.assertEqual(passwd["new"][0], "999")
        self.assertIn("app:!*:20454:::::1:", unpack(self.read("new.tar"))["/etc/shadow"].content.decode())

    def test_the_same_accounts_but_for_numbers(self):
        """Comments, homes, shells, members and locks are those of a run without the older root."""
        files = (("etc/sysusers.d/a.conf", 'u web -:app "50%% \\"x\\"" /srv/w /bin/sh\nu! games -\nm web app\nu web 7\n'),)
        self.applied(*files, said=self.duplicate(files, "a.conf:4"))
        kept = self.accounts("new.tar")
        self.run_it("apply", NOW, "root.tar", "new.tar")
        plain = self.accounts("new.tar")
        for with_old, without in zip(kept, plain, strict=True):
            self.assertEqual(list(with_old), list(without))
        self.assertEqual({name: it[2:] for name, it in kept[0].items()}, {name: it[2:] for name, it in plain[0].items()})
        self.assertEqual({name: it[1:] for name, it in kept[1].items()}, {name: it[1:] for name, it in plain[1].items()})

    def duplicate(self, files: tuple, place: str) -> str:
        """What is said of a duplicate line in a run without the older root."""
        self.root("root.tar", *files)
        it = self.run_it("apply", NOW, "root.tar", "plain.tar")
        self.assertIn(place, it.stderr.decode())
        return it.stderr.decode()

    def test_a_fixed_number_of_the_configuration(self):
        passwd, _ = self.applied(("etc/sysusers.d/a.conf", "u web 70\n"))
        self.assertEqual(passwd["web"][:2], ["990", "990"])

    def test_a_name_that_is_there(self):
        passwd, _ = self.applied(("etc/passwd", "web:x:5:5::/:/n\n"), ("etc/group", "web:x:5:\n"),
                                 ("etc/sysusers.d/a.conf", "u web -\n"))
        self.assertEqual(passwd, {"web": ["5", "5", "", "/", "/n"]})

    def test_a_number_that_is_in_use(self):
        passwd, group = self.applied(
            ("etc/passwd", "else:x:990:990::/:/n\n"), ("etc/group", "else:x:990:\n"),
            ("etc/sysusers.d/a.conf", "u web -\n"), said=(
                "old.tar: warning: the user 'web' has 990 there, which is in use in the new root; it gets 999\n"
                "old.tar: warning: the group 'web' has 990 there, which is in use in the new root; it gets 999\n"
                "provision-image: 2 warnings, no errors\n"))
        self.assertEqual((passwd["web"][:2], group["web"]), (["999", "999"], ["999", ""]))

    def test_a_file_that_the_run_names(self):
        passwd, _ = self.applied(("x.conf", "u web -\n"), words=("--runs", "sysusers /x.conf"))
        self.assertEqual(passwd["web"][0], "990")


if __name__ == "__main__":
    unittest.main()
