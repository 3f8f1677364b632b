"""Overlaps of lines: which of them ask for different things.

The report of the program lists each two lines that share a path. Whether they
undo each other is tried on the finished root: the program does one of them
alone, and then the other one alone. If an object changes, and is then as it
was, the second line has undone what the first one did. Ages are compared as
they are written, since creating does not show them.
"""

import re
from collections.abc import Iterable, Iterator, Sequence
from dataclasses import dataclass, field

from tree_image import unprinted

from .catalogue_form import TMPFILES
from .configuration import Configuration, Place
from .fields import AGE, PATH
from .likely import fields_of
from .program import Program
from .progress import Bar
from .runs import Run

MOST_RUNS = 500  # for all overlaps of a root
_OVERLAP = re.compile(rb"overlap (\S+:[0-9]+) (\S+:[0-9]+) at (\S+)")
_ACTS = re.compile(rb"explain (\S+:[0-9]+) (makes|changes|removes) \S+")


@dataclass(frozen=True, slots=True)
class Overlap:
    """Two lines that share a path, the first one in which they meet, as the program prints it."""

    first: Place
    second: Place
    path: bytes


def overlaps_in(messages: Iterable[bytes]) -> list[Overlap]:
    """The overlaps that a report lists."""
    found = (_OVERLAP.fullmatch(message) for message in messages)
    return [Overlap(Place.of(it[1].decode()), Place.of(it[2].decode()), it[3]) for it in found if it]


def word_of(path: bytes) -> str | None:
    """A printed path as a word for the program; nothing if it is not UTF-8, since no word can name it."""
    plain = unprinted(path)
    try:
        return None if plain is None else plain.decode()
    except UnicodeDecodeError:
        return None


@dataclass(frozen=True, slots=True)
class Act:
    """What a line does to a path in a creating run."""

    place: Place
    act: str


def acts_in(messages: Iterable[bytes]) -> list[Act]:
    """The lines that an explanation lists, in the order in which they act."""
    found = (_ACTS.fullmatch(message) for message in messages)
    return [Act(Place.of(it[1].decode()), it[2].decode()) for it in found if it]


def explain_words(run: Run, path: str) -> list[str]:
    """The words that ask which lines of a creating run act on a path."""
    return [TMPFILES, f"--explain={path}", *filters_of(run), *_files_of(run)]


def filters_of(run: Run) -> list[str]:
    """The options of a run that choose lines."""
    return [it for it in run.options if it.startswith(("--boot", "--prefix=", "--exclude-prefix="))]


def _files_of(run: Run) -> list[str]:
    return ["--", *run.files] if run.files else []


@dataclass
class Trial:
    """Does single lines of a creating run on the finished root, and sees what they change."""

    program: Program
    run: Run
    finished: bytes
    time: int
    left: int = MOST_RUNS
    untried: int = 0  # overlaps that were not tried, since the most runs were done
    _alone: dict[Place, tuple[bytes, list[bytes]]] = field(default_factory=dict)
    _configuration: Configuration = field(init=False)

    def __post_init__(self) -> None:
        self._configuration = Configuration(self.finished, TMPFILES)

    def quarrels(self, pairs: Sequence[Overlap]) -> list[Overlap]:
        """The overlaps whose lines undo each other, each with the first path at which they do."""
        found = []
        bar = Bar("trying overlaps", len(pairs))
        for pair in pairs:
            bar.add(1)
            if self.left < 4:
                self.untried += 1
                continue
            path = self._undone(pair.first, pair.second) or self._undone(pair.second, pair.first)
            if path is not None:
                found.append(Overlap(pair.first, pair.second, path))
        bar.end()
        return found

    def _undone(self, one: Place, other: Place) -> bytes | None:
        """The first path that one line changes on the finished root, and that the other one then puts back."""
        image, changed = self._done_alone(one)
        if not changed:
            return None
        other_than_before = set(differing(self._do(other, image), self._with(other, self.finished)))
        return next((path for path in changed if path not in other_than_before), None)

    def _done_alone(self, place: Place) -> tuple[bytes, list[bytes]]:
        """The finished root after one line alone, and the paths that it changed."""
        if place not in self._alone:
            image = self._do(place, self.finished)
            self._alone[place] = image, differing(image, self._with(place, self.finished))
        return self._alone[place]

    def _with(self, place: Place, image: bytes) -> bytes:
        return self._configuration.image_with(lambda it: it == place, image)

    def _do(self, place: Place, image: bytes) -> bytes:
        """An image after one line alone."""
        self.left -= 1
        words = [TMPFILES, "--create", *filters_of(self.run), *_files_of(self.run)]
        given = self._with(place, image)
        answer = self.program.run(words, given, time=self.time)
        return given if answer.image is None else answer.image


def essence(line: bytes) -> bytes:
    """The line of an object without its timestamps."""
    fields = line.split(b" ")
    return b" ".join(fields[:5] + fields[6:])


def differing(image: bytes, other: bytes) -> list[bytes]:
    """The paths, as images print them, at which two images differ in more than timestamps."""
    lines, others = (set(it[it.index(b"\nd / ") + 1:].split(b"\n")) for it in (image, other))
    mine, theirs = ({line.split(b" ", 2)[1]: essence(line) for line in it} for it in (lines - others, others - lines))
    return sorted(path for path in mine.keys() | theirs.keys() if mine.get(path) != theirs.get(path))


def different_ages(configuration: Configuration, pairs: Iterable[Overlap]) -> Iterator[Overlap]:
    """The overlaps of lines with one path and different ages, of which the first one counts."""
    for pair in pairs:
        first, second = (_path_and_age(configuration.lines.get(it, b"")) for it in (pair.first, pair.second))
        if first[0] == second[0] and b"" not in (first[1], second[1]) and first[1] != second[1]:
            yield pair


def _path_and_age(line: bytes) -> tuple[bytes, bytes]:
    """The path and the age of a line as they are written; an empty age where none is given."""
    fields = fields_of(line)
    age = fields[AGE] if len(fields) > AGE and fields[AGE] != b"-" else b""
    return (fields[PATH] if len(fields) > PATH else b""), age
