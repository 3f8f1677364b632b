"""Which runs some words ask for, which lines keep the numbers of an older root, and images with a file more."""

import unittest

from tests.builder_helper import BuilderCase
from tests.helper import archive, file_member, folder_member, image

from builder.ids import Clash, KeptIds, clashes, lines_for, old_accounts, quoted, read_accounts
from builder.program import Answer, CannotRun, split_output, time_text
from builder.runs import Run, parse_runs
from builder.tree import with_file, without_file


class Runs(unittest.TestCase):
    def words(self, text: str) -> list[list[str]]:
        return [run.words for run in parse_runs(text)]

    def test_runs_in_their_order(self):
        self.assertEqual(self.words("sysusers, create boot"),
                         [["systemd-sysusers"], ["systemd-tmpfiles", "--create", "--boot"]])
        self.assertEqual(self.words("remove create boot,clean"),
                         [["systemd-tmpfiles", "--remove", "--create", "--boot"], ["systemd-tmpfiles", "--clean"]])
        self.assertEqual(self.words("purge /etc/a.conf b.conf"),
                         [["systemd-tmpfiles", "--purge", "--", "/etc/a.conf", "b.conf"]])
        self.assertEqual(self.words("systemd-sysusers a.conf, systemd-tmpfiles --create --prefix=/run"),
                         [["systemd-sysusers", "--", "a.conf"], ["systemd-tmpfiles", "--create", "--prefix=/run"]])
        self.assertEqual(self.words("create '/etc/a b,c.conf'"),
                         [["systemd-tmpfiles", "--create", "--", "/etc/a b,c.conf"]])

    def test_words_without_a_meaning(self):
        for text in ("", "sysusers,", "creat", "boot", "sysusers boot", "create --now=1", "create 'x.conf", "create --root=/"):
            with self.subTest(text=text), self.assertRaises(CannotRun):
                parse_runs(text)


class Answers(unittest.TestCase):
    def test_an_output(self):
        self.assertEqual(split_output(b": a\n: b c\ntree-image 2\n"), ([b"a", b"b c"], b"tree-image 2\n"))
        self.assertEqual(split_output(b"tree-image 2\n"), ([], b"tree-image 2\n"))
        self.assertEqual(split_output(b": usage\n"), ([b"usage"], None))
        self.assertEqual(split_output(b""), ([], None))

    def test_times(self):
        self.assertEqual(time_text(0), "1970-01-01T00:00:00.000000Z")
        self.assertEqual(time_text(253402300799999999), "9999-12-31T23:59:59.999999Z")
        with self.assertRaises(CannotRun):
            time_text(253402300800000000)


PASSWD = b"root:x:0:0:root:/root:/bin/sh\n"
GROUP = b"root:x:0:\n"


class Lines(unittest.TestCase):
    BEFORE = read_accounts(PASSWD, GROUP)

    def lines(self, passwd: bytes, group: bytes, old_passwd: bytes, old_group: bytes, shadow: bytes = b"") -> list[str]:
        return lines_for(self.BEFORE, read_accounts(PASSWD + passwd, GROUP + group, shadow),
                         read_accounts(old_passwd, old_group))

    def test_what_the_older_root_has(self):
        self.assertEqual(self.lines(b"app:x:999:999:An \"app\" 100%:/var/lib/app:/bin/sh\nnew:x:998:998::/:/bin/no\n",
                                    b"app:x:999:\nnew:x:998:\n", b"app:x:70:71::/x:/y\nroot:x:5:5::/:/\n", b"app:x:71:\n"),
                         ["g app 71", 'u app 70:app "An \\"app\\" 100%%" "/var/lib/app" "/bin/sh"'])

    def test_only_the_group_or_only_the_user(self):
        made = b"app:x:999:999::/:/bin/no\n", b"app:x:999:\n"
        self.assertEqual(self.lines(*made, b"", b"app:x:71:\n"), ["g app 71"])
        self.assertEqual(self.lines(*made, b"app:x:70:100::/:/\n", b""), ['u app 70:app - "/" "/bin/no"'])

    def test_another_primary_group(self):
        self.assertEqual(self.lines(b"app:x:999:0::/:/n\n", b"", b"app:x:70:9::/:/\n", b""), ['u app 70:root - "/" "/n"'])
        self.assertEqual(self.lines(b"app:x:999:55::/:/n\n", b"", b"app:x:70:9::/:/\n", b""), ['u app 70:55 - "/" "/n"'])

    def test_a_locked_user(self):
        self.assertEqual(self.lines(b"app:x:999:999::/:/n\n", b"app:x:999:\n", b"app:x:70:70::/:/\n", b"",
                                    b"app:!*:20000:::::1:\n"), ['u! app 70:app - "/" "/n"'])

    def test_a_number_that_nobody_may_have(self):
        self.assertEqual(self.lines(b"app:x:999:999::/:/n\n", b"app:x:999:\n", b"app:x:65535:5::/:/\n", b"app:x:65535:\n"), [])

    def test_clashes(self):
        after = read_accounts(PASSWD + b"app:x:999:998::/:/n\nfine:x:5:5::/:/n\n", GROUP + b"app:x:998:\nfine:x:5:\n")
        old = read_accounts(b"app:x:70:70::/:/n\nfine:x:5:5::/:/n\nroot:x:9:9::/:/n\n", b"app:x:71:\nfine:x:5:\n")
        self.assertEqual(clashes(self.BEFORE, after, old), [Clash("user", "app", 70, 999), Clash("group", "app", 71, 998)])

    def test_quotes(self):
        self.assertEqual([quoted(text) for text in ("", "a b", 'say "x"', "50%", "a\\b")],
                         ["-", '"a b"', '"say \\"x\\""', '"50%%"', '"a\\\\b"'])


class OldRoots(BuilderCase):
    WANTED = read_accounts(b"app:x:70:71::/:/n\n", b"app:x:71:\n")

    def test_each_form(self):
        tar = archive(folder_member(b"./"), folder_member(b"etc"), (file_member(b"etc/passwd"), b"app:x:70:71::/:/n\n"),
                      (file_member(b"etc/group"), b"app:x:71:\n"))
        self.assertEqual(old_accounts(self.put_file("old.tar", tar)), self.WANTED)
        for folder in ("etc", "root/etc", "prepared/tree/etc"):
            (self.room / folder).mkdir(parents=True)
            self.put_file(folder + "/passwd", b"app:x:70:71::/:/n\n")
            self.put_file(folder + "/group", b"app:x:71:\n")
            self.assertEqual(old_accounts(str(self.room / folder.split("/")[0])), self.WANTED, folder)

    def test_faults(self):
        (self.room / "none").mkdir()
        self.put_file("bare.tar", archive(folder_member(b"./")))
        for name in ("none", "bare.tar"):
            with self.assertRaisesRegex(CannotRun, "it has no account files"):
                old_accounts(str(self.room / name))
        with self.assertRaisesRegex(CannotRun, "No such file"):
            old_accounts(str(self.room / "absent"))


class Fake:
    """A program that makes the user app, with a number of its own or that of the added file."""

    def __init__(self) -> None:
        self.given: list[tuple[list[str], bytes]] = []

    def run(self, words, given, *, time) -> Answer:
        self.given.append((words, given))
        number = b"70" if b"!ids-from.conf" in given else b"999"
        made = with_file(with_file(given, b"/etc/passwd", b"app:x:%s:%s::/:/n\n" % (number, number)),
                         b"/etc/group", b"app:x:%s:\n" % number)
        said = [b"/usr/lib/sysusers.d/a.conf:1: duplicate line for app", b"/usr/lib/sysusers.d/!ids-from.conf:2: odd"]
        return Answer(0, said if b"!ids-from.conf" in given else [], made)


class Kept(unittest.TestCase):
    IMAGE = image(b"d /etc 0755 0 0 0,0,0,0 - - - -", b"d /usr 0755 0 0 0,0,0,0 - - - -",
                  b"d /usr/lib 0755 0 0 0,0,0,0 - - - -", b"d /usr/lib/sysusers.d 0755 0 0 0,0,0,0 - - - -")

    def test_the_added_file_is_in_the_second_run_alone(self):
        program = Fake()
        kept = KeptIds(read_accounts(b"app:x:70:70::/:/n\n", b"app:x:70:\n"))
        answer = kept.step(program, Run("systemd-sysusers"), self.IMAGE, 5)
        self.assertEqual(len(program.given), 2)
        self.assertNotIn(b"ids-from", answer.image)
        self.assertIn(b"f /usr/lib/sysusers.d/!ids-from.conf 0644 0 0 ", program.given[1][1])
        self.assertEqual((answer.messages, kept.clashes), ([], []))
        self.assertEqual(program.given[1][0], ["systemd-sysusers"])

    def test_files_that_the_run_names(self):
        program = Fake()
        KeptIds(read_accounts(b"app:x:70:70::/:/n\n", b"")).step(
            program, Run("systemd-sysusers", (), ("a.conf",)), self.IMAGE, 5)
        self.assertEqual(program.given[1][0], ["systemd-sysusers", "--", "/!ids-from.conf", "a.conf"])

    def test_a_name_that_is_there(self):
        program = Fake()
        given = with_file(self.IMAGE, b"/etc/!ids-from.conf", b"x")
        given = with_file(given, b"/usr/lib/sysusers.d/!ids-from.conf", b"g x 5\n")
        answer = KeptIds(read_accounts(b"app:x:70:70::/:/n\n", b"")).step(program, Run("systemd-sysusers"), given, 5)
        self.assertIn(b"f /usr/lib/sysusers.d/!!ids-from.conf ", program.given[1][1])
        self.assertIn(b"f /usr/lib/sysusers.d/!ids-from.conf ", answer.image)

    def test_one_run_where_the_older_root_has_nobody(self):
        program = Fake()
        KeptIds(read_accounts(b"other:x:70:70::/:/n\n", b"")).step(program, Run("systemd-sysusers"), self.IMAGE, 5)
        self.assertEqual(len(program.given), 1)


class Images(unittest.TestCase):
    TEXT = image(b"d /a 0755 0 0 0,0,0,0 - - - -", b"f /a/b\\x20 0644 0 0 0,0,0,0 - - - eA==", b"f /a.b 0644 0 0 0,0,0,0 - - - -")

    def test_a_file_more_and_less(self):
        for path, before in ((b"/a/b", b"f /a/b\\x20"), (b"/a/\xff", b"f /a.b"), (b"/b", b"end"), (b"/.x", b"d /a")):
            made = with_file(self.TEXT, path, b"text")
            at = made.index(b"0644 0 0 0,0,0,0 - - - dGV4dA==\n") + len(b"0644 0 0 0,0,0,0 - - - dGV4dA==\n")
            self.assertTrue(made[at:].startswith(before), path)
            self.assertEqual(without_file(made, path), self.TEXT)


if __name__ == "__main__":
    unittest.main()
