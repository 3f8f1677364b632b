"""A run's messages as people read them: where, what, the line with a mark below the field, and what to do."""

import json
import sys
from collections.abc import Iterable, Sequence
from dataclasses import dataclass, field, replace
from typing import TextIO
from unicodedata import combining, east_asian_width

from .catalogue import CATALOGUE
from .catalogue_form import ANSWER, ERROR, NOTE, SYSUSERS, TMPFILES, WARNING, Found, line_of
from .catalogue_tmpfiles import FACT_NAMES
from .configuration import ImageFiles, plain_path
from .fields import Span
from .locate import Line, holds, locate

WIDTH = 160  # columns of a line that are shown


@dataclass(frozen=True, slots=True)
class Finding:
    """One message of a run, explained."""

    severity: str  # error, warning, note or answer
    code: str  # its name in the catalogue
    sentence: str  # what it says
    advice: str  # what to do
    message: str  # as the program printed it
    file: str = ""  # the configuration file, as the image prints its path
    line: int = 0  # the number of the line, counted from 1; 0 for a message that is not about a line
    source: bytes | None = None  # the line itself
    span: Span | None = None  # the part of the line that it is about
    words: tuple[str, ...] = ()  # the words of the run
    also: tuple[str, bytes] | None = None  # another line that it is about: its place, and the line

    @property
    def place(self) -> str:
        """Where it is, as compilers write it: `FILE:N`, or the program's name."""
        if not self.file:
            return "provision"
        return f"{self.file}:{self.line}" if self.line else self.file

    def also_file(self) -> list[str]:
        """The file of the other line that it is about, if there is one."""
        return [self.also[0].rpartition(":")[0]] if self.also else []

    def text(self, lines: bool = True, advice: bool = True) -> str:
        """The message as compilers write it; with `lines` the line and its mark, and with `advice` what to do."""
        kind = "" if self.severity in (ERROR, ANSWER) else f"{self.severity}: "
        rows = [f"{self.place}: {kind}{self.sentence}"]
        if lines and self.source is not None:
            rows += [f"    {row}" for row in marked(self.source, self.span)]
            rows += [f"    {self.also[0]}: {shown_text(self.also[1])}"] if self.also else []
        if lines and advice and self.advice:
            rows.append(f"    help: {self.advice}")
        return "\n".join(rows)

    def json(self) -> dict[str, object]:
        """The message as an object of --json."""
        shown: dict[str, object] = {"kind": "message", "severity": self.severity, "code": self.code,
                                    "text": self.sentence}
        if self.file:
            shown["file"] = self.file
        if self.line:
            shown["line"] = self.line
        if self.source is not None:
            shown["source"] = shown_text(self.source)
        if self.source is not None and self.span is not None:
            shown["column"] = len(shown_text(self.source[:self.span.start])) + 1
            shown["end_column"] = len(shown_text(self.source[:self.span.end])) + 1
        if self.also:
            shown["other"] = {"place": self.also[0], "source": shown_text(self.also[1])}
        if self.advice:
            shown["help"] = self.advice
        shown["message"] = self.message
        shown["run"] = list(self.words)
        return shown


def shown_text(data: bytes) -> str:
    """Bytes as text: what is not UTF-8, and control characters other than tabs, as \\xHH."""
    text = data.decode(errors="backslashreplace")
    return "".join(x if x.isprintable() or x == "\t" else f"\\x{ord(x):02x}" for x in text)


def marked(line: bytes, span: Span | None) -> list[str]:
    """A line of configuration, and below it a mark under a part of it."""
    text = shown_text(line.rstrip(b"\r"))
    if span is None:
        return [text if len(text) <= WIDTH else text[:WIDTH] + ".."]
    before, field = shown_text(line[:span.start]), shown_text(span.of(line))
    skipped = max(0, min(len(before) - 40, len(before) + len(field) + 20 - WIDTH))
    front = ".." if skipped else ""
    text, before = text[skipped:], before[skipped:]
    blank = front.replace(".", " ") + "".join("\t" if x == "\t" else " " * columns(x) for x in before)
    end = ".." if len(text) > WIDTH else ""
    return [front + text[:WIDTH] + end, blank + "^" + "~" * (columns(field[:WIDTH - len(before)]) - 1)]


def columns(text: str) -> int:
    """How many columns of a terminal a text takes."""
    return sum(0 if combining(x) else 2 if east_asian_width(x) in "WF" else 1 for x in text)


def judge(messages: Iterable[bytes], image: bytes, strict: bool = False, *, words: Sequence[str] = (),
          status: int | None = None, after: bytes | None = None) -> list[Finding]:
    """The messages of one run, explained.

    `image` is the input of the run, from which the lines are read, `words` are
    the words of the run, `status` is its exit status, and `after` its output.
    With `strict` a warning or a note is an error.
    """
    judge_one = _Judge(ImageFiles(image), tuple(words), ImageFiles(after) if after is not None else None)
    findings = [judge_one.finding(message.decode(errors="backslashreplace")) for message in messages]
    if status is not None:
        findings = _as_status_says(findings, status)
    if strict:
        findings = [replace(it, severity=ERROR) if it.severity in (WARNING, NOTE) else it for it in findings]
    return findings


def _as_status_says(findings: list[Finding], status: int) -> list[Finding]:
    """A refused line with `-` is a warning: the status of the run shows whether it counts."""
    def counts(finding: Finding) -> bool:
        if finding.severity != ERROR or _status_of(finding) != "73":
            return True
        return status == 73 and not _may_fail(finding)

    if status == 73 and not any(_status_of(it) == "73" and not _may_fail(it) for it in findings):
        return findings
    return [it if counts(it) else replace(it, severity=WARNING) for it in findings]


def _status_of(finding: Finding) -> str:
    return next((it.status for it in CATALOGUE.messages() if it.code == finding.code), "")


def _may_fail(finding: Finding) -> bool:
    """Whether the line has the modifier `-`: in creating, its failure does not change the status."""
    source = finding.source
    return source is not None and b"-" in source.split()[:1][0] and "--create" in finding.words


class _Judge:
    """What is needed to explain the messages of one run."""

    def __init__(self, files: ImageFiles, words: tuple[str, ...], after: ImageFiles | None) -> None:
        self._files, self._words, self._after = files, words, after

    def finding(self, message: str) -> Finding:
        """One message, explained."""
        for found in CATALOGUE.find(message, self._tool(message)):
            source = self._files.line(found.file.encode(), found.line) if found.line else None
            line = Line(source, self._tool(message), self._files.facts, self._files.accounts) if source else None
            if found.entry.when and (line is None or not holds(found.entry, line)):
                continue
            return self._explained(message, found, source, locate(found.entry, line) if line else None)
        file, line, text = line_of(message)
        source = self._files.line(file.encode(), line) if line else None
        return Finding(ERROR, "Unknown", text, "", message, file, line, source, words=self._words)

    def _tool(self, message: str) -> str:
        """The tool of the run; if no words are known, that of the folder of the file."""
        if self._words:
            return self._words[0]
        return SYSUSERS if "/sysusers.d/" in message.split(" ")[0] else TMPFILES if ":" in message else ""

    def _explained(self, message: str, found: Found, source: bytes | None, span: Span | None) -> Finding:
        entry = found.entry
        part = span.of(source) if span is not None and source is not None else b""
        values = {**found.values, "field": f"'{shown_text(part)}'", "letter": shown_text(part[1:])}
        values["fact"] = FACT_NAMES.get(values["letter"], "")
        sentence = entry.text.format_map(values)
        if entry.code == "InUse":
            sentence = self._in_use(found.values["number"], found.values["name"])
        return Finding(entry.severity, entry.code, sentence, entry.advice.format_map(values), message, found.file,
                       found.line, source, span, self._words)

    def _in_use(self, number: str, name: str) -> str:
        """Who has the ID that a line fixes, and which ID the user or group of the line got."""
        text = f"'{name}' does not get the ID {number}, which "
        holders = [it.decode() for it in (self._after or self._files).holders(int(number)) if it.decode() != name]
        text += f"'{holders[0]}' has" if holders else "another account has"
        got = self._after.number_of(plain_path(name.encode())) if self._after else None
        return text + (f"; it gets {got}" if got is not None else "")


@dataclass
class Report:
    """Writes findings and counts them; the same message of the same tool is written once."""

    strict: bool = False
    as_json: bool = False
    stream: TextIO = field(default_factory=lambda: sys.stderr)
    counts: dict[str, int] = field(default_factory=lambda: {ERROR: 0, WARNING: 0, NOTE: 0, ANSWER: 0})
    _shown: set[tuple[str, str]] = field(default_factory=set)
    _advised: set[str] = field(default_factory=set)

    def show(self, findings: Iterable[Finding]) -> None:
        """Write findings and count them; what to do stands below the first one of its kind."""
        for finding in findings:
            key = (finding.message, finding.words[0] if finding.words else "")
            if key in self._shown:
                continue
            self._shown.add(key)
            self.counts[finding.severity] += 1
            advice = finding.advice not in self._advised
            self._advised.add(finding.advice)
            print(json.dumps(finding.json()) if self.as_json else finding.text(advice=advice), file=self.stream)

    def finish(self) -> int:
        """Write how many there were, and give the exit status: 1 if there was an error, else 0."""
        if self.as_json:
            counts = {f"{kind}s": self.counts[kind] for kind in (ERROR, WARNING, NOTE)}
            print(json.dumps({"kind": "summary", **counts}), file=self.stream)
        elif any(self.counts[kind] for kind in (ERROR, WARNING, NOTE)):
            print(f"provision-image: {self.summary()}", file=self.stream)
        return 1 if self.counts[ERROR] else 0

    def summary(self) -> str:
        """How many findings there were, in words."""
        parts = [counted(self.counts[kind], kind) for kind in (ERROR, WARNING, NOTE) if self.counts[kind]]
        if not self.counts[ERROR]:
            parts.append("no errors")
        return ", ".join(parts)


def counted(count: int, word: str) -> str:
    """A number with its word: `1 error`, `2 errors`."""
    return f"{count} {word}" if count == 1 else f"{count} {word}s"
