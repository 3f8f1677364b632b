"""The program `provision`: where it is, and one run of it over a tree image.

All work on a tree is done by the program. This module gives it words and an
image, and takes its messages and the new image.
"""

import os
import shutil
import subprocess
from dataclasses import dataclass
from datetime import datetime, timedelta, timezone
from pathlib import Path

TOOLS = Path(__file__).resolve().parent.parent
INVALID, REFUSED, NOTHING_FREE = 65, 73, 1
# What the program's other exit statuses mean; none of them leaves a new image.
FAILURES = {
    66: "it takes the input for no tree image",
    71: "it ran out of memory",
    74: "its input could not be read",
    75: "it was stopped",
    76: "its output could not be written",
    77: "a folder could not be read or written",
}


class CannotRun(Exception):
    """What ends the command with status 2; its text is the one line on standard error."""


@dataclass(frozen=True, slots=True)
class Answer:
    """What one run gave: its exit status, its messages without `: `, and the new image if there is one."""

    status: int
    messages: list[bytes]
    image: bytes | None


def time_text(micros: int) -> str:
    """A time in microseconds since 1970, as the option `--now` takes it."""
    try:
        moment = datetime(1970, 1, 1, tzinfo=timezone.utc) + timedelta(microseconds=micros)
    except OverflowError:
        raise CannotRun(f"the time {micros} is too late") from None
    return moment.strftime("%Y-%m-%dT%H:%M:%S.%fZ")


def _usual_places() -> list[Path]:
    """Where the program is when it was installed together with this tool, or built beside it."""
    return [TOOLS.parent.parent / "bin/provision", TOOLS.parent / "crates/provision/out/provision"]


def find_program(given: str | None) -> str:
    """The path of the program: the given one, the one that belongs to this tool, or the first on PATH."""
    if given is not None:
        found = shutil.which(given)
        if found is None:
            raise CannotRun(f"{given}: no program is there")
        return found
    for path in _usual_places():
        if path.is_file() and os.access(path, os.X_OK):
            return str(path)
    found = shutil.which("provision")
    if found is None:
        raise CannotRun("the program `provision` is not found; name it by --program")
    return found


def split_output(output: bytes) -> tuple[list[bytes], bytes | None]:
    """The messages at the head of an output, and the image after them if there is one."""
    messages = []
    at = 0
    while output.startswith(b": ", at):
        end = output.find(b"\n", at)
        end = len(output) if end < 0 else end
        messages.append(output[at + 2:end])
        at = end + 1
    return messages, (output[at:] if at else output) if at < len(output) else None


class Program:
    """The program at a path. `runs` counts how often it was asked."""

    def __init__(self, path: str | None = None) -> None:
        self.path = find_program(path)
        self.runs = 0

    def run(self, words: list[str], image: bytes, *, time: int | None = None) -> Answer:
        """One run over an image at a time (microseconds since 1970; otherwise the clock's).

        Statuses 0, 65 (a line is invalid), 73 (a line was refused) and 1 (no number is left for a
        name) give an answer. Any other end raises CannotRun.
        """
        self.runs += 1
        given = [self.path, words[0], *([] if time is None else [f"--now={time_text(time)}"]), *words[1:]]
        try:
            done = subprocess.run(given, input=image, capture_output=True, check=False)
        except OSError as fault:
            raise CannotRun(f"{self.path}: {fault.strerror}") from None
        messages, made = split_output(done.stdout)
        self._check(done.returncode, words, messages, made)
        return Answer(done.returncode, messages, made)

    def _check(self, status: int, words: list[str], messages: list[bytes], image: bytes | None) -> None:
        """Raise CannotRun unless the run gave an answer."""
        if status in (0, INVALID, REFUSED, NOTHING_FREE) and image is not None:
            return
        if status < 0:
            why = f"it was ended by signal {-status}"
        elif messages == [b"usage"]:
            why = "these arguments are not valid"
        else:
            why = FAILURES.get(status, f"it ended with status {status} and no image")
        said = messages[0].decode(errors="backslashreplace") if messages else ""
        raise CannotRun(f"{' '.join([self.path, *words])}: {why}{f' ({said})' if said else ''}")
