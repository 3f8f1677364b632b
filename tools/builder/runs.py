"""Which runs of the program a command makes, and in which order; each run works on what the last one gave."""

import shlex
from collections.abc import Callable
from dataclasses import dataclass, field

from .program import Answer, CannotRun, Program

PHASES = ("create", "remove", "clean", "purge", "boot")
DEFAULT_RUNS = "sysusers, create boot"
SYSUSERS = "systemd-sysusers"
TMPFILES = "systemd-tmpfiles"


@dataclass(frozen=True, slots=True)
class Run:
    """One run: the tool, its options, and the configuration files that it reads in place of all."""

    tool: str
    options: tuple[str, ...] = ()
    files: tuple[str, ...] = ()

    @property
    def words(self) -> list[str]:
        """The words that the program is given."""
        return [self.tool, *self.options, *(("--", *self.files) if self.files else ())]

    def __str__(self) -> str:
        return " ".join([self.tool, *self.options, *self.files])


@dataclass(frozen=True, slots=True)
class Ran:
    """A run that is done: its words, what it was given, and what it answered."""

    run: Run
    before: bytes
    answer: Answer

    @property
    def words(self) -> list[str]:
        return self.run.words

    @property
    def image(self) -> bytes:
        """The image that the run gave."""
        return self.before if self.answer.image is None else self.answer.image


@dataclass(slots=True)
class _Parts:
    """What the words of one run say, sorted."""

    phases: list[str] = field(default_factory=list)
    prefixes: list[str] = field(default_factory=list)
    files: list[str] = field(default_factory=list)


def _split(text: str) -> list[list[str]]:
    """The words of each run; commas separate the runs, quotes keep blanks and commas."""
    reader = shlex.shlex(text, posix=True, punctuation_chars=",")
    reader.whitespace_split = True
    reader.commenters = ""
    runs: list[list[str]] = [[]]
    try:
        for word in reader:
            if word.strip(",") == "":
                runs += [[] for _ in word]
            else:
                runs[-1].append(word)
    except ValueError:
        raise CannotRun(f"--runs: a quote without its end in {text!r}") from None
    return runs


def _sort(words: list[str]) -> _Parts:
    """The phases, prefixes and files among the words of a run."""
    parts = _Parts()
    for word in words:
        plain = word.removeprefix("--")
        if plain in PHASES:
            parts.phases.append(f"--{plain}")
        elif plain.startswith(("prefix=", "exclude-prefix=")):
            parts.prefixes.append(f"--{plain}")
        elif not word.startswith("-") and ("/" in word or word.endswith(".conf")):
            parts.files.append(word)
        else:
            raise CannotRun(f"--runs: `{word}` is neither a tool, a phase, a prefix nor a configuration file")
    return parts


def _run_of(words: list[str]) -> Run:
    """The run that some words ask for."""
    if not words:
        raise CannotRun("--runs: a run without words")
    tool = words[0].removeprefix("systemd-")
    parts = _sort(words[1:] if tool in ("sysusers", "tmpfiles") else words)
    if tool == "sysusers":
        if parts.phases or parts.prefixes:
            raise CannotRun("--runs: sysusers takes configuration files only")
        return Run(SYSUSERS, (), tuple(parts.files))
    if not set(parts.phases) - {"--boot"}:
        raise CannotRun(f"--runs: `{' '.join(words)}` names no phase: create, remove, clean or purge")
    return Run(TMPFILES, tuple(parts.phases + parts.prefixes), tuple(parts.files))


def parse_runs(text: str) -> list[Run]:
    """The runs that a text asks for, as `sysusers, remove create boot, purge /etc/a.conf`."""
    return [_run_of(words) for words in _split(text)]


def inline_files(runs: list[Run]) -> frozenset[bytes]:
    """The configuration files with a path of their own: their contents must be in the image."""
    return frozenset(file.encode("utf-8", "surrogateescape")
                     for run in runs for file in run.files if file.startswith("/"))


Step = Callable[[Program, Run, bytes, int], Answer]


def _plain_step(program: Program, run: Run, image: bytes, time: int) -> Answer:
    return program.run(run.words, image, time=time)


def carry_out(program: Program, image: bytes, runs: list[Run], time: int, sysusers: Step | None = None) -> list[Ran]:
    """Do the runs in order, each on the image of the one before.

    `sysusers`, if given, does the runs of systemd-sysusers in place of the program alone.
    """
    done: list[Ran] = []
    for run in runs:
        step = sysusers if sysusers is not None and run.tool == SYSUSERS else _plain_step
        answer = step(program, run, image, time)
        done.append(Ran(run, image, answer))
        image = done[-1].image
    return done
