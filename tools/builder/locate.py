"""Where in a line the field is that a message is about.

The program names the line and the fault. The place is found by the field
that the fault is about (catalogue), and within it by what the fault looks
for. Where the place is not known, the message has no mark.
"""

import re
from collections.abc import Callable
from dataclasses import dataclass

from .catalogue_form import SYSUSERS, Message
from .fields import (
    AGE, ARGUMENT, GECOS, GROUP, HOME, ID, MODE, NAME, PATH, REST, SHELL, TYPE, USER, Cut, Span, cut_line, unescaped,
)

NUMBERS = {"type": TYPE, "path": PATH, "mode": MODE, "user": USER, "group": GROUP, "age": AGE, "argument": ARGUMENT,
           "name": NAME, "id": ID, "gecos": GECOS, "home": HOME, "shell": SHELL, "rest": REST}
ACCOUNT_NAME = re.compile(rb"[A-Za-z_][A-Za-z0-9_-]{0,30}\Z")
FACTS = b"abHlmv"  # the letters of specifiers whose value a running system has
_SPECIFIER = re.compile(rb"%(.?)", re.DOTALL)
_FIXED = {SYSUSERS: b"TVABMWow", "": b"TVABMWowCLStguGUh"}


@dataclass(frozen=True, slots=True)
class Line:
    """A line of configuration with what is known of its image."""

    text: bytes
    tool: str
    facts: frozenset[bytes] = frozenset()  # the letters that have a value
    accounts: frozenset[bytes] = frozenset()  # the names of all users and groups

    def cut(self) -> Cut:
        return cut_line(self.text)


def holds(entry: Message, line: Line) -> bool:
    """Whether a line has what the meaning of an entry asks for."""
    check = _CONDITIONS.get(entry.code)
    return check is None or check(line)


def locate(entry: Message, line: Line) -> Span | None:
    """The part of a line that an entry of the catalogue is about, if it is known."""
    cut = line.cut()
    if "line" in entry.about:
        return cut.at if cut.fault else None
    for about in entry.about:
        if about in _SEARCHES:
            span = _SEARCHES[about](entry.code, line, cut)
        else:
            span = _field(cut, NUMBERS[about])
            if span is not None and len(entry.about) > 1 and not _is_faulty(entry.code, about, span.of(line.text)):
                continue
        if span is not None:
            return span
    return _end(line) if "argument" in entry.about else None


def _field(cut: Cut, number: int) -> Span | None:
    return cut.fields[number] if number < len(cut.fields) else None


def _end(line: Line) -> Span:
    """The place behind the last field, where something is missing."""
    end = len(line.text.rstrip())
    return Span(end, end)


# Which of several fields is at fault

def _names(text: bytes) -> list[bytes]:
    return unescaped(text).split(b"/")


def _is_text(text: bytes) -> bool:
    return all(byte >= 32 and byte not in b":\x7f" for byte in text)


def _is_faulty(code: str, about: str, text: bytes) -> bool:
    """Whether a field can have a fault of this code; a field that was read before may be well."""
    checks: dict[str, Callable[[bytes], bool]] = {
        "NotAbsolute": lambda text: text[:1] not in (b"/", b"%"),
        "PathTooLong": lambda text: len(text) > 4095,
        "NameTooLong": lambda text: any(len(name) > 240 for name in _names(text)),
        "DotComponent": lambda text: any(name in (b".", b"..") for name in _names(text)),
        "StagingName": lambda text: any(name.startswith(b".#tf-") for name in _names(text)),
        "BadName": lambda text: not ACCOUNT_NAME.match(text) and b"%" not in text,
    }
    if code == "BadField":
        plain = text == b"-" or _is_text(text) and (about == "gecos" or text[:1] in (b"/", b"%"))
        return about == "rest" or not plain
    return code not in checks or checks[code](unescaped(text))


# Parts of a field

def _specifier(code: str, line: Line, cut: Cut) -> Span | None:
    """The first specifier with this fault."""
    numbers = (PATH, ARGUMENT) if line.tool != SYSUSERS else (NAME, ID, GECOS, HOME, SHELL)
    fixed = _FIXED.get(line.tool, _FIXED[""])
    for span in filter(None, (_field(cut, number) for number in numbers)):
        for found in _SPECIFIER.finditer(span.of(line.text)):
            letter = found[1]
            missing = letter and letter in FACTS and letter not in line.facts
            unknown = not letter or letter not in fixed + FACTS + b"%"
            if missing if code == "MissingFact" else unknown:
                return span.part(found.start(), found.end())
    return None


def _modifier(code: str, line: Line, cut: Cut) -> Span | None:
    """The modifier of a credential in the type."""
    span = _field(cut, TYPE)
    at = span.of(line.text).find(b"^") if span else -1
    return span.part(at, at + 1) if at >= 0 else None


def _acl(code: str, line: Line, cut: Cut) -> Span | None:
    """The first entry of an ACL that can have this fault, else the whole argument."""
    span = _field(cut, ARGUMENT)
    if span is None:
        return None
    start = 0
    for entry in span.of(line.text).split(b","):
        if _ENTRIES[code](entry, line):
            return span.part(start, start + len(entry))
        start += len(entry) + 1
    return span


def _parts(entry: bytes) -> list[bytes]:
    """The tag, the name and the permissions of an entry."""
    parts = entry.split(b":")
    return parts[1:] if parts[0] in (b"d", b"default") else parts


def _has_bad_tag(entry: bytes, line: Line) -> bool:
    parts = _parts(entry)
    tags = (b"u", b"user", b"g", b"group", b"m", b"mask", b"o", b"other")
    return len(parts) != 3 or parts[0] not in tags or parts[0][:1] in b"mo" and parts[1] != b""


def _has_unknown_name(entry: bytes, line: Line) -> bool:
    parts = _parts(entry)
    return len(parts) == 3 and parts[1] != b"" and not parts[1].isdigit() and parts[1] not in line.accounts


def _has_bad_permissions(entry: bytes, line: Line) -> bool:
    bits = _parts(entry)[-1]
    return not 1 <= len(bits) <= 3 or bits.strip(b"rwx-") != b"" or any(bits.count(x) > 1 for x in (b"r", b"w", b"x"))


def _has_capital_x(entry: bytes, line: Line) -> bool:
    return _has_bad_permissions(entry, line) and not _has_bad_permissions(entry.replace(b"X", b"x"), line)


_ENTRIES: dict[str, Callable[[bytes, Line], bool]] = {
    "EmptyEntry": lambda entry, line: entry == b"",
    "BadTag": _has_bad_tag,
    "UnknownName": _has_unknown_name,
    "BadPerm": _has_bad_permissions,
    "ConditionalExecute": _has_capital_x,
}
_SEARCHES: dict[str, Callable[[str, Line, Cut], Span | None]] = {
    "specifier": _specifier, "modifier": _modifier, "acl": _acl,
}


# Entries of one form with several meanings

def _is_credential(line: Line) -> bool:
    """Whether the type has `^` beside modifiers that tmpfiles.d(5) knows, each once."""
    fields = line.cut().fields
    marks = fields[TYPE].of(line.text)[1:] if fields else b""
    return b"^" in marks and len(set(marks)) == len(marks) and not marks.strip(b"^+!-=~$")


def _has_only_capital_x(line: Line) -> bool:
    """Whether all entries that have bad permissions have them for the `X` alone."""
    span = _field(line.cut(), ARGUMENT)
    entries = span.of(line.text).split(b",") if span else []
    bad = [entry for entry in entries if _has_bad_permissions(entry, line)]
    return bool(bad) and all(_has_capital_x(entry, line) for entry in bad)


_CONDITIONS: dict[str, Callable[[Line], bool]] = {
    "Credential": _is_credential, "ConditionalExecute": _has_only_capital_x,
}
