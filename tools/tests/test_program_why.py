"""provision-image why over the program: who makes a path, and when and by which line it goes."""

import json
import unittest

from tests.helper import file_member, folder_member
from tests.program import NOW, PROGRAM, ProgramCase
from tests.test_program_diff import root

LINES = b"""\
d /tmp 1777 - - 10d
x /tmp/keep
d /run/app 0750 app app
z /run/app 0700
R! /srv/boot
D /srv/emptied
d /srv/now - - - 0
d /srv/outer - - - 5d
d /srv/outer/inner - - - 20d
"""
DAY = 86400
MADE = 1767225600 - 3 * DAY  # three days before the time of the runs


@unittest.skipUnless(PROGRAM, "CHECK_PROGRAM names no program")
class Why(ProgramCase):
    def setUp(self) -> None:
        super().setUp()
        old = [(file_member(path, records={b"mtime": b"%d.5" % MADE}), b"x") for path in (
            b"tmp/file", b"tmp/keep", b"srv/boot", b"srv/emptied/a", b"srv/now/a", b"srv/outer/inner/a")]
        folders = [folder_member(path) for path in (b"tmp", b"srv/emptied", b"srv/now", b"srv/outer",
                                                    b"srv/outer/inner")]
        (self.room / "root.tar").write_bytes(root(LINES, *folders, *old))

    def why(self, path: str, *words: str) -> dict:
        found = json.loads(self.command("why", "--json", "--now", NOW, path, *words, "root.tar")[0])
        for fate in found["fates"]:
            self.assertLessEqual(fate["runs"], 60)
            self.assertTrue(fate["complete"])
        return found

    def fate(self, found: dict, how: str) -> tuple:
        (fate,) = [it for it in found["fates"] if it["how"] == how]
        return fate["happens"], fate["time"], fate["line"] and fate["line"]["line"], fate["line_alone"]

    def test_a_path_that_is_made(self):
        found = self.why("/run/app")
        self.assertEqual((found["in_root"], found["after_runs"]), (None, "directory 0700 app:app"))
        self.assertEqual([(it["act"], it["line"]) for it in found["acts"]], [("makes", 3), ("changes", 4)])
        self.assertEqual(found["acts"][0]["source"], "d /run/app 0750 app app")
        self.assertEqual(self.fate(found, "cleaned"), (False, None, None, False))

    def test_a_path_that_is_there_already(self):
        found = self.why("/srv/outer/inner")
        self.assertEqual([(it["act"], it["line"]) for it in found["acts"]], [("would make", 9)])
        self.assertEqual(found["in_root"], "directory 0755 root:root")

    def test_when_a_path_is_cleaned(self):
        found = self.why("/tmp/file")
        # Half a second after 00:00:00 the file is three days old; it goes once it is older than ten.
        self.assertEqual(self.fate(found, "cleaned"), (True, "2026-01-08T00:00:01Z", 1, True))
        self.assertEqual(self.fate(found, "removed"), (False, None, None, False))

    def test_the_nearest_age_counts(self):
        self.assertEqual(self.fate(self.why("/srv/outer/inner/a"), "cleaned"), (True, "2026-01-18T00:00:01Z", 9, True))

    def test_a_path_that_is_spared(self):
        self.assertEqual(self.fate(self.why("/tmp/keep"), "cleaned"), (False, None, 2, True))

    def test_an_age_of_zero(self):
        self.assertEqual(self.fate(self.why("/srv/now/a"), "cleaned"), (True, None, 7, True))

    def test_what_is_removed_at_boot(self):
        self.assertEqual(self.fate(self.why("/srv/boot"), "removed"), (True, None, 5, True))
        self.assertEqual(self.fate(self.why("/srv/emptied/a"), "removed"), (True, None, 6, True))

    def test_what_the_runs_remove(self):
        found = self.why("/srv/boot", "--runs", "remove create boot")
        self.assertEqual((found["in_root"], found["after_runs"]), ("file 0644 root:root", None))
        self.assertEqual([(it["act"], it["line"]) for it in found["acts"]], [("removes", 5)])

    def test_a_time_that_has_passed(self):
        found = json.loads(self.command("why", "--json", "--now", "2026-03-01T00:00:00Z", "/tmp/file", "root.tar")[0])
        self.assertEqual(self.fate(found, "cleaned"), (True, "2026-01-08T00:00:01Z", 1, True))

    def test_a_path_of_which_a_line_is_refused(self):
        (self.room / "root.tar").write_bytes(root(b"d /run/app 0750 nobody\n"))
        output = self.command("why", "/run/app", "root.tar", status=1)[0]
        self.assertIn("  /etc/tmpfiles.d/a.conf:1: unknown user 'nobody'\n", output)

    def test_the_text(self):
        output = self.command("why", "--now", NOW, "/run/app", "root.tar")[0]
        self.assertEqual(output.splitlines()[:7], [
            "/run/app", "  in the root: absent", "  after the runs: directory 0700 app:app",
            "  made by /etc/tmpfiles.d/a.conf:3", "      d /run/app 0750 app app",
            "  changed by /etc/tmpfiles.d/a.conf:4", "      z /run/app 0700"])
        self.assertRegex(output, r"\(provision was run \d+ times: \d+ for the runs and the lines that act, \d+ to ")

    def test_a_path_that_cannot_be(self):
        errors = self.command("why", "run/app", "root.tar", status=2)[1]
        self.assertEqual(len(errors.splitlines()), 1)


if __name__ == "__main__":
    unittest.main()
