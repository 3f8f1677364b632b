"""Guesses that save runs: which lines may take a path, and when. The program decides whether they are right."""

import re

from .configuration import Configuration, Place, node_line
from .fields import AGE, PATH, TYPE, cut_line, unescaped

SECOND = 1000000
_PART = re.compile(rb"([0-9]+)([a-z]*)")
_UNITS = {b"us": 1, b"ms": 1000, b"": SECOND, b"s": SECOND, b"m": 60 * SECOND, b"min": 60 * SECOND,
          b"h": 3600 * SECOND, b"d": 86400 * SECOND, b"w": 604800 * SECOND}


def fields_of(line: bytes) -> list[bytes]:
    """The fields of a line up to its first fault, with their escapes undone."""
    return [unescaped(span.of(line)) for span in cut_line(line).fields]


def age_of(text: bytes) -> int | None:
    """An age in microseconds; nothing if it has a unit that is not guessed."""
    parts = _PART.findall(text.rpartition(b":")[2])
    if not parts or any(unit not in _UNITS for _, unit in parts):
        return None
    return sum(int(number) * _UNITS[unit] for number, unit in parts)


def likely_times(configuration: Configuration, path: bytes) -> list[int]:
    """The first whole seconds at which a timestamp of the object at a path is older than an age of some line."""
    line = node_line(configuration.image, path)
    stamps = {int(text) for text in line.split(b" ")[5].split(b",")} if line else set()
    given = (fields[AGE] for fields in map(fields_of, configuration.lines.values()) if len(fields) > AGE)
    ages = {age for text in given if (age := age_of(text)) is not None}
    return [((stamp + age) // SECOND + 1) * SECOND for stamp in stamps for age in ages]


def likely_lines(configuration: Configuration, path: bytes) -> list[Place]:
    """Lines that may take a path, judged by their text: those that name it or a directory above it, nearest first."""
    guesses = []
    for place, line in configuration.lines.items():
        fields = fields_of(line)
        named = fields[PATH].rstrip(b"/") if len(fields) > PATH else b"?"
        is_above = path == named or path.startswith(named + b"/")
        takes = fields[TYPE][:1] in (b"r", b"R", b"D") if fields else False
        if is_above and (takes or len(fields) > AGE and fields[AGE] != b"-"):
            guesses.append((-len(named), place))
    return [place for _, place in sorted(guesses)]
