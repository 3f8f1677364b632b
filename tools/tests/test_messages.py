"""Messages as people read them: the sentence, the line, the mark below the field, levels and objects."""

import base64
import io
import json
import random
import unittest

from tests.helper import image

from builder.fields import Span, cut_line, unescaped  # noqa: E402
from builder.messages import Finding, Report, judge, marked, shown_text  # noqa: E402

# A line, its fault, and the part of the line that the mark stands below.
TMPFILES = (
    (b"d /a 0755 colord", "UnknownUser", b"colord"),
    (b'd "/a b" 0755 - "no one"', "UnknownGroup", b"no one"),
    (b"d\t/a\t0799", "BadMode", b"0799"),
    (b"y /a", "UnknownType", b"y"),
    (b"d+ /a", "BadModifier", b"d+"),
    (b"d a/b", "NotAbsolute", b"a/b"),
    (b"C /a - - - - b", "NotAbsolute", b"b"),
    (b"C /a - - - - /b/../c", "DotComponent", b"/b/../c"),
    (b"d /a/./b", "DotComponent", b"/a/./b"),
    (b"d /a/.#tf-b", "StagingName", b"/a/.#tf-b"),
    (b"f /", "RootPath", b"/"),
    (b"z /a/[b 0644", "UnclosedBracket", b"/a/[b"),
    (b"z /a/[z-a] 0644", "BadRange", b"/a/[z-a]"),
    (b"d /a - - - z:1d", "BadStampLetter", b"z:1d"),
    (b"d /a - - - 1month", "BadUnit", b"1month"),
    (b"w /a", "ArgumentNeeded", b""),
    (b"w /a - - - - -", "ArgumentNeeded", b"-"),
    (b"c /a - - - - 1:b", "BadDevice", b"1:b"),
    (b"t /a - - - - a=1", "BadAttribute", b"a=1"),
    (b"h /a - - - - +Q", "BadLetter", b"+Q"),
    (b"a /a - - - - u::rwx,,g::r", "EmptyEntry", b""),
    (b"a /a - - - - u::rwx,x:a:r", "BadTag", b"x:a:r"),
    (b"a /a - - - - u:root:rwx,d:g:nosuch:r", "UnknownName", b"d:g:nosuch:r"),
    (b"a /a - - - - u::rwx,g::rz", "BadPerm", b"g::rz"),
    (b"d /a/%q", "UnknownSpecifier", b"%q"),
    (b"f /a - - - - %T%", "UnknownSpecifier", b"%"),
    (b"d /run/%t/%%b/%b", "MissingFact", b"%b"),
    (b"f /a - - - - it is %v", "MissingFact", b"%v"),
    (b'd "/a', "OpenQuote", b'"/a'),
    (b'd "/a"b', "GluedQuote", b"b"),
    (b"d /a\\q", "BadEscape", b"\\q"),
    (b"d", "TooFew", b""),
    (b"d /a\0", "BadByte", b"\0"),
)
SYSUSERS = (
    (b"x a -", "BadType", b"x"),
    (b"m a", "MissingField", None),
    (b"u 1a -", "BadName", b"1a"),
    (b"m root 1b", "BadName", b"1b"),
    (b"u a x:y:z", "BadId", b"x:y:z"),
    (b"r - 9-5", "BadRange", b"9-5"),
    (b'u a - "a:b"', "BadField", b"a:b"),
    (b"u a - - home", "BadField", b"home"),
    (b"u a - - /home bin/sh", "BadField", b"bin/sh"),
    (b"u a - - /home /bin/sh more", "BadField", b"more"),
    (b"u a - %b", "MissingFact", b"%b"),
)


ACCOUNTS = b"root:x:0:0::/:/bin/sh\na:x:1001:7::/:\n"
FILES = ("/etc/tmpfiles.d/a.conf", "/etc/sysusers.d/a.conf")
HELP = "Run systemd-sysusers first, add a line for this user to a file in sysusers.d, or write the UID."


def with_line(line: bytes, file: str = "/etc/tmpfiles.d/a.conf") -> bytes:
    """An image with a file of configuration that has this line as its second one."""
    text = base64.b64encode(b"# a comment\n" + line + b"\n")
    folder = file.rpartition("/")[0].encode()
    return image(b"d /etc 0755 0 0 0,0,0,0 - - - -",
                 b"f /etc/group 0644 0 0 0,0,0,0 - - - " + base64.b64encode(b"root:x:0:\n"),
                 b"f /etc/passwd 0644 0 0 0,0,0,0 - - - " + base64.b64encode(ACCOUNTS),
                 b"d " + folder + b" 0755 0 0 0,0,0,0 - - - -",
                 b"f " + file.encode() + b" 0644 0 0 0,0,0,0 - - - " + text)


def judged(line: bytes, text: str, file: str = "/etc/tmpfiles.d/a.conf", **more) -> Finding:
    """One message about the line of an image."""
    (finding,) = judge([f"{file}:2: {text}".encode()], with_line(line, file), **more)
    return finding


def mark_of(finding: Finding) -> bytes | None:
    """The marked part of the line."""
    return None if finding.span is None else finding.span.of(finding.source)


class Marks(unittest.TestCase):
    def test_lines_of_tmpfiles(self):
        for line, fault, wanted in TMPFILES:
            finding = judged(line, fault)
            self.assertEqual((finding.code, mark_of(finding)), (fault, wanted), line)

    def test_lines_of_sysusers(self):
        for line, fault, wanted in SYSUSERS:
            finding = judged(line, fault, "/etc/sysusers.d/a.conf")
            self.assertEqual((finding.code, mark_of(finding)), (fault, wanted), line)

    def test_messages_of_runs(self):
        for line, text, wanted in ((b"d /run/lock 0755", "duplicate line for /run/lock", b"/run/lock"),
                                   (b"C /a - - - - /b/c", "source /b/c refused at /b: link", b"/b/c"),
                                   (b"C /a", "source /usr/share/factory/a refused at /usr: link", b"/a"),
                                   (b"d /a/b", "/a/b refused at /a: unsafe owner", b"/a/b")):
            self.assertEqual(mark_of(judged(line, text)), wanted, text)

    def test_any_line_can_be_marked(self):
        draw = random.Random(7)
        for _ in range(300):
            line = bytes(draw.choice(b"du /a\"'\\%b:,-\t\0\xff") for _ in range(draw.randrange(25)))
            for fault in ("UnknownUser", "MissingFact", "BadPerm", "OpenQuote", "BadField", "DotComponent"):
                for file in FILES:
                    finding = judged(line, fault, file)
                    self.assertTrue(finding.text().startswith(file))
                    json.dumps(finding.json())

    def test_the_mark_stands_below_the_field(self):
        self.assertEqual(marked(b"d\t/a", Span(2, 4)), ["d\t/a", " \t^~"])
        self.assertEqual(marked(b"\xff /a", Span(2, 4)), ["\\xff /a", "     ^~"])
        self.assertEqual(marked(b"d \xc3\xa4 /a", Span(5, 7)), ["d ä /a", "    ^~"])
        self.assertEqual(marked("d /日本 /a".encode(), Span(10, 12)), ["d /日本 /a", "        ^~"])
        self.assertEqual(marked("d /日本 /a".encode(), Span(2, 9)), ["d /日本 /a", "  ^~~~~"])
        self.assertEqual(marked(b"w /a", Span(4, 4)), ["w /a", "    ^"])
        long = b"d /" + b"a" * 300 + b" 9999"
        row, mark = marked(long, Span(304, 308))
        self.assertEqual((row[mark.index("^"):], mark.strip()), ("9999", "^~~~"))
        self.assertLess(len(row), 200)


class Levels(unittest.TestCase):
    def test_what_most_roots_meet_is_a_note(self):
        for line, fault, code in ((b"f^ /etc/hosts - - - - network.hosts", "BadModifier", "Credential"),
                                  (b"a+ /a - - - - g:root:r-X", "BadPerm", "ConditionalExecute"),
                                  (b"x /tmp/%b-*", "MissingFact", "MissingFact")):
            self.assertEqual((judged(line, fault).code, judged(line, fault).severity), (code, "note"))
            self.assertEqual(judged(line, fault, strict=True).severity, "error")

    def test_what_only_looks_so_is_an_error(self):
        for line, fault in ((b"d^^ /a", "BadModifier"), (b"d^? /a", "BadModifier"), (b"d+ /a", "BadModifier"),
                            (b"a+ /a - - - - g:root:r-X,u:root:rq", "BadPerm"), (b"a /a - - - - g:root:XX", "BadPerm")):
            self.assertEqual((judged(line, fault).code, judged(line, fault).severity), (fault, "error"), line)

    def test_a_refused_line_with_a_minus(self):
        words = ("systemd-tmpfiles", "--create")
        refused = "/a/b refused at /a: link"
        self.assertEqual(judged(b"d- /a/b", refused, words=words, status=0).severity, "warning")
        self.assertEqual(judged(b"d /a/b", refused, words=words, status=73).severity, "error")
        words = ("systemd-tmpfiles", "--remove")
        self.assertEqual(judged(b"d- /a/b", refused, words=words, status=73).severity, "error")

    def test_a_number_in_use_cannot_be_read_backwards(self):
        file = "/etc/sysusers.d/a.conf"
        before = with_line(b"u b 1001", file)
        after = before.replace(base64.b64encode(ACCOUNTS), base64.b64encode(ACCOUNTS + b"b:x:999:999::/:\n"))
        (finding,) = judge([f"{file}:2: 1001 is in use for b".encode()], before, after=after)
        self.assertEqual(finding.sentence, "'b' does not get the ID 1001, which 'a' has; it gets 999")
        self.assertEqual((finding.severity, mark_of(finding)), ("warning", b"1001"))

    def test_an_unknown_message_is_an_error(self):
        (finding,) = judge([b"something new"], image())
        self.assertEqual((finding.severity, finding.sentence), ("error", "something new"))


class Texts(unittest.TestCase):
    def test_as_compilers_write(self):
        self.assertEqual(judged(b"d /var/lib/colord 0755 colord colord", "UnknownUser").text(), "\n".join((
            "/etc/tmpfiles.d/a.conf:2: unknown user 'colord'",
            "    d /var/lib/colord 0755 colord colord",
            "                           ^~~~~~",
            f"    help: {HELP}")))
        self.assertEqual(judged(b"x /tmp/%b-*", "MissingFact").text(lines=False),
                         "/etc/tmpfiles.d/a.conf:2: note: the image has no boot ID for '%b'")

    def test_objects(self):
        shown = judged(b"d /a 0755 colord", "UnknownUser", words=("systemd-tmpfiles", "--create")).json()
        self.assertEqual(shown, {
            "kind": "message", "severity": "error", "code": "UnknownUser", "text": "unknown user 'colord'",
            "file": "/etc/tmpfiles.d/a.conf", "line": 2, "source": "d /a 0755 colord", "column": 11, "end_column": 17,
            "help": HELP,
            "message": "/etc/tmpfiles.d/a.conf:2: UnknownUser", "run": ["systemd-tmpfiles", "--create"]})

    def test_reports_count_and_say_each_thing_once(self):
        finding = judged(b"d /a 0755 colord", "UnknownUser")
        note = judged(b"x /tmp/%b-*", "MissingFact")
        stream = io.StringIO()
        report = Report(stream=stream)
        report.show([finding, finding, note])
        self.assertEqual(report.finish(), 1)
        self.assertEqual(stream.getvalue().splitlines()[-1], "provision-image: 1 error, 1 note")
        self.assertEqual(stream.getvalue().count("unknown user"), 1)
        quiet = Report(stream=io.StringIO())
        quiet.show([note])
        self.assertEqual((quiet.finish(), quiet.summary()), (0, "1 note, no errors"))

    def test_a_report_of_objects(self):
        stream = io.StringIO()
        report = Report(as_json=True, stream=stream)
        report.show([judged(b"x /tmp/%b-*", "MissingFact")])
        report.finish()
        rows = [json.loads(row) for row in stream.getvalue().splitlines()]
        self.assertEqual([row["kind"] for row in rows], ["message", "summary"])
        self.assertEqual(rows[1], {"kind": "summary", "errors": 0, "warnings": 0, "notes": 1})

    def test_bytes_that_are_not_text(self):
        self.assertEqual(shown_text(b"a\xff\x1b[1m\tb"), "a\\xff\\x1b[1m\tb")


class Cutting(unittest.TestCase):
    def test_fields(self):
        for line, wanted in ((b"d /a  0755", [b"d", b"/a", b"0755"]), (b"'d' \"/a b\"\r", [b"d", b"/a b"]),
                             (b"w /a - - - - some  text ", [b"w", b"/a", b"-", b"-", b"-", b"-", b"some  text"]),
                             (b'd "a\\"b" c', [b"d", b'a\\"b', b"c"]), (b'd /a"b"', [b"d", b'/a"b"'])):
            self.assertEqual([span.of(line) for span in cut_line(line).fields], wanted)

    def test_escapes(self):
        self.assertEqual(unescaped(b"a\\x20b\\s\\\\\\101\\n"), b"a b \\A\n")


if __name__ == "__main__":
    unittest.main()
