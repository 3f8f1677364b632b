"""provision-image check over the program: what is to be corrected, and what is harmless."""

import json
import unittest

from tests.program import NOW, PROGRAM, ProgramCase
from tests.test_program_diff import root


@unittest.skipUnless(PROGRAM, "CHECK_PROGRAM names no program")
class Check(ProgramCase):
    def check(self, lines: bytes, *words: str, status: int = 0) -> list[dict]:
        """The findings about a root with these lines, as objects."""
        (self.room / "root.tar").write_bytes(root(lines))
        output, errors = self.command("check", "--json", "--now", NOW, *words, "root.tar", status=status)
        self.assertEqual(output, "")
        return [row for row in map(json.loads, errors.splitlines()) if row["kind"] == "message"]

    def codes(self, lines: bytes, *words: str, status: int = 0) -> list[tuple]:
        return [(it["code"], it["severity"], it.get("line")) for it in self.check(lines, *words, status=status)]

    def test_a_configuration_without_faults(self):
        self.assertEqual(self.codes(b"d /run/app 0750 app app\nf /run/app/state 0644 app app - ready\n"), [])

    def test_a_text_that_all_is_well(self):
        (self.room / "root.tar").write_bytes(root(b"d /run/app 0755\n"))
        self.assertEqual(self.command("check", "root.tar"), ("", "provision-image: nothing to correct\n"))

    def test_invalid_lines_and_duplicates(self):
        self.assertEqual(self.codes(b"d /run/app 0750 app app\ny /run/app\nd /run/app 0700\n", status=1),
                         [("UnknownType", "error", 2), ("Duplicate", "warning", 3)])

    def test_a_refused_line(self):
        self.assertEqual(self.codes(b"f /etc/tmpfiles.d/a.conf/x\n", status=1),
                         [("NotDirectory", "error", 1), ("HazardInput", "warning", 1)])

    def test_lines_that_ask_for_different_things(self):
        (found,) = self.check(b"d /run/app 0755\nz /run/app 0700\n", status=1)
        self.assertEqual((found["code"], found["severity"], found["line"]), ("Quarrel", "warning", 2))
        self.assertEqual(found["text"], "this line and /etc/tmpfiles.d/a.conf:1 undo each other at /run/app")
        self.assertEqual(found["other"], {"place": "/etc/tmpfiles.d/a.conf:1", "source": "d /run/app 0755"})

    def test_lines_that_ask_for_the_same_are_harmless(self):
        self.assertEqual(self.codes(b"d /run/app 0755\nz /run/app 0755\n"), [("Overlap", "answer", 2)])
        self.assertEqual(self.codes(b"d /run/app 0755\nt /run/app - - - - user.k=v\n"),
                         [("Overlap", "answer", 2)])

    def test_a_shared_path_that_no_word_can_name(self):
        self.assertEqual(self.codes(b"d /srv/\xff 0755\nz /srv/\xff 0700\n", status=1), [("Quarrel", "warning", 2)])

    def test_patterns_that_undo_each_other_at_an_object_of_the_root(self):
        lines = b"d /srv/a1 0750\nz /srv/a* 0750\nz /srv/*1 0700\n"
        found = self.check(lines, status=1)
        self.assertEqual({(it["line"], it["text"]) for it in found if it["code"] == "Quarrel"}, {
            (3, "this line and /etc/tmpfiles.d/a.conf:1 undo each other at /srv/a1"),
            (3, "this line and /etc/tmpfiles.d/a.conf:2 undo each other at /srv/a1")})
        self.assertEqual([it["line"] for it in found if it["code"] == "Overlap"], [2])

    def test_lines_that_append_and_write(self):
        found = self.codes(b"f /srv/log\nw /srv/log - - - - one\nw+ /srv/log - - - - two\n", status=1)
        self.assertEqual(found, [("HazardAppend", "warning", 3), ("Quarrel", "warning", 3), ("Overlap", "answer", 2),
                                 ("Overlap", "answer", 3)])

    def test_a_file_and_all_that_is_below_a_directory(self):
        lines = b"d /srv/a 0750\nZ /srv/a 0750 - -\nf /srv/a/f 0644\n"
        found = [(it["code"], it["text"]) for it in self.check(lines, status=1) if it["code"] == "Quarrel"]
        self.assertEqual(found, [("Quarrel", "this line and /etc/tmpfiles.d/a.conf:2 undo each other at /srv/a/f")])

    def test_two_ages(self):
        found = self.codes(b"d /tmp 1777 - - 10d\ne /tmp 1777 - - 5d\n", status=1)
        self.assertEqual(found, [("Ages", "warning", 2)])

    def test_hazards(self):
        found = self.check(b"w+ /srv/log - - - - more\n", status=1)
        self.assertEqual([(it["code"], it["severity"], it["line"]) for it in found], [("HazardAppend", "warning", 1)])
        self.assertEqual(found[0]["source"], "w+ /srv/log - - - - more")

    def test_notes_count_only_with_strict(self):
        line = b"f^ /etc/hosts - - - - hosts\n"
        self.assertEqual(self.codes(line), [("Credential", "note", 1)])
        self.assertEqual(self.codes(line, "--strict", status=1), [("Credential", "error", 1)])

    def test_only_some_files(self):
        self.assertEqual(self.codes(b"y /run/app\n", "--only", "/usr/*"), [])
        self.assertEqual(self.codes(b"y /run/app\n", "--only", "/etc/*", status=1), [("UnknownType", "error", 1)])


if __name__ == "__main__":
    unittest.main()
