"""The fields of a line of configuration, and where each of them is in the line.

A line has up to six fields between blanks, and an argument that goes on to
the end of the line (tmpfiles.d(5), sysusers.d(5)). A field may be in quotes.
"""

import re
from dataclasses import dataclass, field

BLANKS = b" \t\r"
QUOTES = b"\"'"
TYPE, PATH, MODE, USER, GROUP, AGE, ARGUMENT = range(7)
NAME, ID, GECOS, HOME, SHELL, REST = range(1, 7)

_ESCAPE = re.compile(rb"\\(?:[abfnrtv\\\"'s]|x[0-9a-fA-F]{2}|[0-7]{3})")
_NAMED = {b"a": b"\a", b"b": b"\b", b"f": b"\f", b"n": b"\n", b"r": b"\r", b"t": b"\t", b"v": b"\v", b"s": b" "}


@dataclass(frozen=True, slots=True)
class Span:
    """A part of a line: its first byte and the one behind its last."""

    start: int
    end: int

    def of(self, line: bytes) -> bytes:
        """The bytes of the line in this part."""
        return line[self.start:self.end]

    def part(self, start: int, end: int) -> "Span":
        """A part of this part, counted from its first byte."""
        return Span(self.start + start, self.start + end)


@dataclass(slots=True)
class Cut:
    """The fields of a line up to its first fault, and where that is."""

    fields: list[Span] = field(default_factory=list)
    fault: str = ""
    at: Span = Span(0, 0)


class _Fault(Exception):
    """A fault of a line with its place."""

    def __init__(self, name: str, at: Span) -> None:
        super().__init__(name)
        self.at = at


def cut_line(line: bytes) -> Cut:
    """The fields of a line, or those before its first fault."""
    cut = Cut()
    try:
        if (at := line.find(b"\0")) >= 0:
            raise _Fault("BadByte", Span(at, at + 1))
        _cut_into(cut, line)
        if len(cut.fields) < 2:
            raise _Fault("TooFew", Span(len(line.rstrip(BLANKS)), len(line.rstrip(BLANKS))))
    except _Fault as fault:
        cut.fault, cut.at = str(fault), fault.at
    return cut


def _cut_into(cut: Cut, line: bytes) -> None:
    at = _next_place(line, 0)
    while at < len(line) and len(cut.fields) < ARGUMENT:
        span, after = _field_at(line, at)
        cut.fields.append(span)
        at = _next_place(line, after)
    if at < len(line):
        cut.fields.append(_checked(line, Span(at, len(line.rstrip(BLANKS)))))


def _next_place(line: bytes, at: int) -> int:
    """The place of the next byte that is not a blank, or the end."""
    while at < len(line) and line[at] in BLANKS:
        at += 1
    return at


def _field_at(line: bytes, at: int) -> tuple[Span, int]:
    """The field that begins at a place, without its quotes, and the place behind it."""
    if line[at] not in QUOTES:
        end = at
        while end < len(line) and line[end] not in BLANKS:
            end += 1
        return _checked(line, Span(at, end)), end
    close = _closing_quote(line, at)
    span = _checked(line, Span(at + 1, close))
    if close + 1 < len(line) and line[close + 1] not in BLANKS:
        raise _Fault("GluedQuote", Span(close + 1, close + 2))
    return span, close + 1


def _closing_quote(line: bytes, at: int) -> int:
    """The place of the quote that closes the one at a place."""
    place = at + 1
    while place < len(line) and line[place] != line[at]:
        place += 2 if line[place] == ord("\\") else 1
    if place >= len(line):
        raise _Fault("OpenQuote", Span(at, len(line.rstrip(BLANKS))))
    return place


def _checked(line: bytes, span: Span) -> Span:
    """The part, if each backslash in it begins an escape."""
    text, at = span.of(line), 0
    while (at := text.find(b"\\", at)) >= 0:
        found = _ESCAPE.match(text, at)
        if not found:
            raise _Fault("BadEscape", span.part(at, min(at + 2, len(text))))
        at = found.end()
    return span


def unescaped(text: bytes) -> bytes:
    """The bytes for which a field stands: its escapes undone."""
    return _ESCAPE.sub(_meaning, text)


def _meaning(found: re.Match[bytes]) -> bytes:
    escape = found[0][1:]
    if escape[:1] == b"x":
        return bytes([int(escape[1:], 16)])
    if escape.isdigit():
        return bytes([int(escape, 8) & 255])
    return _NAMED.get(escape, escape)
