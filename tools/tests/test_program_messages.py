"""The program's own messages, explained: each fault is named by the program, and marked where the test says."""

import base64
import unittest

from tests.helper import image
from tests.program import PROGRAM, ProgramCase
from tests.test_messages import SYSUSERS, TMPFILES, mark_of

from builder.messages import judge  # noqa: E402


def configured(folder: str, line: bytes) -> bytes:
    """An image with one configuration file of this line."""
    text = base64.b64encode(line + b"\n")
    return image(b"d /etc 0755 0 0 0,0,0,0 - - - -",
                 b"f /etc/group 0644 0 0 0,0,0,0 - - - " + base64.b64encode(b"root:x:0:\n"),
                 b"f /etc/passwd 0644 0 0 0,0,0,0 - - - " + base64.b64encode(b"root:x:0:0::/:/bin/sh\n"),
                 f"d /etc/{folder} 0755 0 0 0,0,0,0 - - - -".encode(),
                 f"f /etc/{folder}/a.conf 0644 0 0 0,0,0,0 - - - ".encode() + text)


@unittest.skipUnless(PROGRAM, "CHECK_PROGRAM names no program")
class OfTheProgram(ProgramCase):
    def explained(self, words: list[str], given: bytes) -> list:
        answer = self.program.run(words, given)
        return judge(answer.messages, given, words=words, status=answer.status, after=answer.image)

    def test_faults_of_tmpfiles(self):
        for line, fault, wanted in TMPFILES:
            (finding,) = self.explained(["systemd-tmpfiles", "--create"], configured("tmpfiles.d", line))
            self.assertEqual((finding.message, finding.code, mark_of(finding)),
                             (f"/etc/tmpfiles.d/a.conf:1: {fault}", fault, wanted), line)

    def test_faults_of_sysusers(self):
        for line, fault, wanted in SYSUSERS:
            (finding,) = self.explained(["systemd-sysusers"], configured("sysusers.d", line))
            self.assertEqual((finding.message, finding.code, mark_of(finding)),
                             (f"/etc/sysusers.d/a.conf:1: {fault}", fault, wanted), line)

    def test_what_runs_say(self):
        words = ["systemd-tmpfiles", "--create"]
        for line, code, wanted, severity in (
                (b"d /var/run/x 0755", "OldRun", b"/var/run/x", "warning"),
                (b"f /etc 0644", "Left", b"/etc", "note"),
                (b"d /etc/passwd/x 0755", "NotDirectory", b"/etc/passwd/x", "error"),
                (b"d- /etc/passwd/x 0755", "NotDirectory", b"/etc/passwd/x", "warning"),
                (b"C /x - - - - /etc/passwd/x", "SourceNotDirectory", b"/etc/passwd/x", "error")):
            (finding,) = self.explained(words, configured("tmpfiles.d", line))
            self.assertEqual((finding.code, mark_of(finding), finding.severity), (code, wanted, severity), line)
        (finding,) = self.explained(["systemd-tmpfiles", "--remove"], configured("tmpfiles.d", b"r /etc"))
        self.assertEqual((finding.code, finding.severity), ("NotEmpty", "error"))

    def test_who_has_a_number_is_said(self):
        given = configured("sysusers.d", b"u b 0")
        finding = self.explained(["systemd-sysusers"], given)[0]
        self.assertEqual(finding.sentence, "'b' does not get the ID 0, which 'root' has; it gets 999")

    def test_each_hazard_is_explained(self):
        for lines, code in ((b"w+ /a - - - - x", "HazardAppend"), (b"C /b - - - - /a\nf /a/x", "HazardSource"),
                            (b"C /b - - - - /a\nf /b/x", "HazardBelow"), (b"f /etc/tmpfiles.d/b.conf", "HazardInput"),
                            (b"z /a ~0755\na+ /a - - - - g::r", "HazardMask")):
            findings = self.explained(["systemd-tmpfiles", "--report"], configured("tmpfiles.d", lines))
            self.assertIn(code, [finding.code for finding in findings], lines)
            self.assertNotIn("Unknown", [finding.code for finding in findings])


if __name__ == "__main__":
    unittest.main()
