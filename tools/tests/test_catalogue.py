"""The catalogue of messages has each message of the program, and docs/MESSAGES.md is made from it."""

import re
import unittest

from tests.helper import TOOLS

from builder.catalogue import CATALOGUE  # noqa: E402
from builder.catalogue_form import AT_LINE, SEVERITIES  # noqa: E402
from make_messages import DOCUMENT, document  # noqa: E402

CRATES = TOOLS.parent / "crates"
LITERAL = re.compile(r'(?:extend_from_slice\(|from_slice\(alloc, |push_at\(place, |Usage, |=> |Some\()b"([^"]+)"'
                     r'|at_line\(alloc, n, "(\w+)"')
# What stands in images, account files, tests and words, and not in messages.
OTHER = {"end\\n", "-\\n", "fact ", "tree-image 1", "tree-image 2", "tree-image 2\\n", "tmpfiles.d", "sysusers.d",
         "/usr/share/factory", ".#tf-", ":x:", ":!*:", ":!*::", "Memory"}
SPECIFIERS = {"/tmp", "/var/tmp", "/var/cache", "/var/log", "/var/lib", "/run", "/root", "root"}  # their values
VALUES = ("directory|file|link|fifo|character device|block device|makes|changes|removes|repeatable|not repeatable|"
          "not a directory|unsafe owner").split("|")


def program_literals() -> set[str]:
    """The texts of which the program's messages consist."""
    found = set()
    for source in CRATES.glob("*/src/**/*.rt"):
        if not source.relative_to(CRATES).parts[0].startswith(("test_", "bench_", "pv_generate")):
            found |= {text or name for text, name in LITERAL.findall(source.read_text())}
    return {text for text in found - OTHER - SPECIFIERS if re.search("[A-Za-z]{2}", text)}


class Catalogued(unittest.TestCase):
    def test_the_document_is_made_from_the_catalogue(self):
        self.assertEqual(DOCUMENT.read_text(), document(), "run tools/make_messages.py")

    def test_each_text_of_the_program_is_in_the_catalogue(self):
        forms = "\n".join(entry.form for entry in CATALOGUE.messages())
        literals = program_literals()
        self.assertGreater(len(literals), 80)
        for text in sorted(literals):
            self.assertTrue(text in VALUES or text.strip() in forms, f"no message has {text!r}")

    def test_each_message_is_one_of_the_program(self):
        literals = program_literals()
        for entry in CATALOGUE.messages():
            last = re.split(r"\b[A-Z]+\b", entry.form.removeprefix(AT_LINE))[-1].strip(" :,")
            if last and last not in VALUES:
                self.assertTrue(any(last in text or text in last for text in literals), entry.form)

    def test_entries(self):
        for section in CATALOGUE.sections:
            forms = [(entry.form, entry.when) for entry in section.messages]
            self.assertEqual(len(forms), len(set(forms)))
            for entry in section.messages:
                self.assertIn(entry.severity, SEVERITIES)
                self.assertTrue(entry.text and entry.meaning.endswith("."), entry.code)
                if entry.status:
                    self.assertTrue(entry.advice, f"{entry.code} says nothing of what to do")

    def test_forms_are_found(self):
        for text, code, values in (
                ("/etc/a.conf:12: UnknownUser", "UnknownUser", {}),
                ("/etc/a.conf:3: 1001 is in use for b", "InUse", {"number": "1001", "name": "b"}),
                ("/etc/a.conf:3: source /a/b refused at /a: link", "SourceLink", {"path": "/a/b", "place": "/a"}),
                ("/etc/a.conf:3: /x is a character device, left", "Left", {"path": "/x", "kind": "character device"}),
                ("/etc/passwd is a link, left", "AccountFile", {"path": "/etc/passwd", "kind": "link"}),
                ("overlap /etc/a:1 /etc/b:22 at /x", "Overlap", {"file": "/etc/a", "n": "1", "other": "/etc/b:22",
                                                                 "path": "/x"}),
                ("unrepeatable /etc/a:1 below", "HazardBelow", {"file": "/etc/a", "n": "1"}),
                ("explain /x is f 0644 0 0 - - - aGk=", "State", {"path": "/x", "state": "f 0644 0 0 - - - aGk="}),
                ("not repeatable", "Verdict", {"verdict": "not repeatable"}),
                ("bad image at line 7: NoParent", "NoParent", {"n": "7"}),
                ("a:1: not found", "NotFound", {"word": "a:1"})):
            found = next(CATALOGUE.find(text))
            self.assertEqual((found.entry.code, found.values), (code, values), text)
        self.assertEqual(list(CATALOGUE.find("/etc/a.conf:12: NoSuchFault")), [])

    def test_the_tool_decides(self):
        text = "/x/a.conf:1: BadRange"
        for tool, word in (("systemd-tmpfiles", "[z-a]"), ("systemd-sysusers", "`r` line")):
            self.assertIn(word, next(CATALOGUE.find(text, tool)).entry.meaning)


if __name__ == "__main__":
    unittest.main()
