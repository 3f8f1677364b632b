"""Every message of the program once, as data: what it means and what to do.

docs/MESSAGES.md is made from this catalogue (tools/make_messages.py), and
messages.py reads it to explain a run's messages. A message is found by its
form: the text that the program prints, with words in capitals where a value
stands.
"""

import re
from collections.abc import Iterable, Iterator
from dataclasses import dataclass
from functools import cached_property

ERROR, WARNING, NOTE, ANSWER = "error", "warning", "note", "answer"
SEVERITIES = {
    ERROR: "the line, or the whole run, was not carried out",
    WARNING: "something to look at that does not change the status of `provision`; `provision-image check` ends with 1",
    NOTE: "many root file systems meet it, and usually nothing needs to be done",
    ANSWER: "what a report, an explanation, `generate` or a stopped run says",
}

TMPFILES, SYSUSERS = "systemd-tmpfiles", "systemd-sysusers"

# What stands for a word in capitals of a form. Printed bytes have no blank in them.
_VALUES = {
    "FILE": r"\S+", "N": r"[0-9]+", "PATH": r"\S+", "PLACE": r"\S+", "WORD": r"\S+", "NAME": r"\S+",
    "NUMBER": r"[0-9]+", "COUNT": r"[0-9]+", "NODES": r"[0-9]+", "MESSAGES": r"[0-9]+", "PAIRS": r"[0-9]+",
    "KIND": r"directory|file|link|fifo|character device|block device", "ACT": r"makes|changes|removes",
    "OTHER": r"\S+:[0-9]+", "STATE": r"[dflpcb] .*", "VERDICT": r"repeatable|not repeatable",
}
_WORD = re.compile(r"\b(?:%s)\b" % "|".join(sorted(_VALUES, key=len, reverse=True)))

AT_LINE = "FILE:N: "


@dataclass(frozen=True)
class Message:
    """One message: its form, how serious it is, what it says to a reader, and what to do."""

    code: str  # its short name in --json
    form: str  # as the program prints it, without the `: ` before it
    text: str  # as people read it, with {values} of the form and {field}, the part of the line that is marked
    meaning: str  # one or two sentences for MESSAGES.md
    advice: str = ""  # what to do
    about: tuple[str, ...] = ()  # the fields of the line that it can be about, in the order in which they are read
    severity: str = ERROR
    status: str = ""  # the exit status of the program
    when: str = ""  # what the line has, where messages of this form have several meanings

    @cached_property
    def pattern(self) -> re.Pattern[str]:
        """What finds the message, with a group for each value of its form."""
        form, pattern, end = self.form.removeprefix(AT_LINE), "", 0
        for word in _WORD.finditer(form):
            name = word[0].lower()
            value = f"(?P<{name}>{_VALUES[word[0]]})" if f"<{name}>" not in pattern else f"(?:{_VALUES[word[0]]})"
            pattern += re.escape(form[end:word.start()]) + value
            end = word.end()
        return re.compile(pattern + re.escape(form[end:]))

    @property
    def is_at_line(self) -> bool:
        """Whether the message names the line of a configuration file that it is about."""
        return self.form.startswith(AT_LINE)


@dataclass(frozen=True)
class Section:
    """A part of the catalogue, with the text that stands above it in MESSAGES.md."""

    title: str
    intro: str
    messages: tuple[Message, ...]
    tool: str = ""  # the tool whose lines the section is about; none for both


@dataclass(frozen=True)
class Found:
    """A message of a run with its entry in the catalogue."""

    entry: Message
    values: dict[str, str]
    file: str = ""
    line: int = 0


_PLACE = re.compile(r"(\S+):([0-9]+): (.*)", re.DOTALL)


def line_of(text: str) -> tuple[str, int, str]:
    """The file, the number and the rest of a message `FILE:N: TEXT`; no file and 0 for another message."""
    place = _PLACE.fullmatch(text)
    return (place[1], int(place[2]), place[3]) if place else ("", 0, text)


class Catalogue:
    """The messages of all sections, found by what the program prints."""

    def __init__(self, sections: Iterable[Section]) -> None:
        self.sections = tuple(sections)

    def messages(self) -> Iterator[Message]:
        """All messages in order."""
        for section in self.sections:
            yield from section.messages

    def find(self, text: str, tool: str = "") -> Iterator[Found]:
        """The entries whose form a printed message has: those about a line first, each in the order of the catalogue.

        Where a tool is named, the entries about lines of the other tool are left out.
        """
        file, number, rest = line_of(text)
        for entry, values in self._entries(rest, tool, True) if file else ():
            yield Found(entry, values, file, number)
        for entry, values in self._entries(text, tool, False):
            line = int(values["n"]) if "file" in values and "n" in values else 0
            yield Found(entry, values, values.get("file", ""), line)

    def _entries(self, text: str, tool: str, is_at_line: bool) -> Iterator[tuple[Message, dict[str, str]]]:
        """The entries of this form with the values that stand in the text."""
        for section in self.sections:
            if tool and section.tool not in ("", tool):
                continue
            for entry in section.messages:
                if entry.is_at_line == is_at_line and (found := entry.pattern.fullmatch(text)):
                    yield entry, found.groupdict()
