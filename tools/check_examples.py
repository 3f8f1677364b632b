#!/usr/bin/env python3
"""Runs each transcript of the documents over the built program and compares it, byte for byte.

A transcript is a block of lines that begin with four spaces, of which some
begin with `    $ `: a command each, and after it all that it prints. Read are
README.md, docs/*.md, examples/*.md and man/*. They run in a scratch copy, in
order, with the program as `provision` on the path, and `provision-image`,
`tar_to_image` and `image_to_tar` beside it. A document that names
`out/provision` runs in crates/provision, any other one at the top. A word
/tmp/NAME is a file of the copy. A block of an image must be one, and where the
text before it says "With `WORDS` it gives", it must be what these words give
over the image before.

A transcript that cannot run is marked in the line before it by
`<!-- not run: REASON -->`, in a manual page by `.\\" not run: REASON`.

    check_examples.py [PROGRAM]      crates/provision/out/provision, or CHECK_PROGRAM
"""

import os
import re
import shutil
import subprocess
import sys
import tempfile
from dataclasses import dataclass, field
from pathlib import Path

from tree_image import ImageReader, Trouble

TOP = Path(__file__).resolve().parent.parent
INDENT = "    "
PROMPT = "    $ "
NOT_RUN = re.compile(r"(?:<!--|\.\\\") not run: (.*?)(?: -->)?$")
TEMPORARY = re.compile(r"(?<=[\s<>=])/tmp/")


@dataclass
class Block:
    """An indented block: where it begins, its lines, and the text just before it."""

    line: int
    lines: list[str] = field(default_factory=list)
    before: str = ""
    reason: str | None = None


@dataclass
class Tally:
    commands: int = 0
    images: int = 0
    skipped: int = 0
    faults: int = 0


def plain_text(path: Path) -> list[str]:
    """The lines of a document; those of a manual page without the escapes of roff."""
    text = path.read_text()
    if path.parent.name == "man":
        for escape, byte in (("\\&", ""), ("\\-", "-"), ("\\(aq", "'"), ("\\(dq", '"'), ("\\e", "\\")):
            text = text.replace(escape, byte)
    return text.splitlines()


def blocks_of(lines: list[str]) -> list[Block]:
    """The indented blocks of a document that stand by themselves."""
    blocks: list[Block] = []
    text: list[str] = []
    inside = False
    for number, line in enumerate(lines, 1):
        if line.startswith(INDENT):
            if not inside:
                blocks.append(Block(number, before=" ".join(text)))
                marks = [found[1] for it in text[-2:] if (found := NOT_RUN.search(it))]
                blocks[-1].reason = marks[-1] if marks else None
                inside = True
            blocks[-1].lines.append(line)
        else:
            if inside:
                text, inside = [], False
            text.append(line)
    return blocks


def commands_of(block: Block) -> list[tuple[int, str, str]]:
    """Each command with its line and what it is to print."""
    commands: list[tuple[int, str, str]] = []
    for number, line in enumerate(block.lines, block.line):
        if line.startswith(PROMPT):
            commands.append((number, line[len(PROMPT):], ""))
        elif commands:
            at, command, wanted = commands[-1]
            if command.endswith("\\") and not wanted:
                commands[-1] = at, command[:-1] + line.strip(), ""
            else:
                commands[-1] = at, command, wanted + line[len(INDENT):] + "\n"
    return commands


class Scratch:
    """A copy of what the commands of one document see."""

    def __init__(self, room: Path, program: Path, at_crate: bool) -> None:
        self.room = room
        self.top = room / "top"
        for name in ("examples", "tools", "docs", "man"):
            if (TOP / name).is_dir():
                shutil.copytree(TOP / name, self.top / name, ignore=shutil.ignore_patterns("__pycache__"))
        out = self.top / "crates/provision/out"
        out.mkdir(parents=True)
        shutil.copy(program, out / "provision")
        if (TOP / "CHANGELOG.md").is_file():
            shutil.copy(TOP / "CHANGELOG.md", self.top)
        for tool in ("provision_image", "tar_to_image", "image_to_tar"):
            name = "provision-image" if tool == "provision_image" else tool
            (out / name).symlink_to(self.top / "tools" / f"{tool}.py")
        (room / "tmp").mkdir()
        self.folder = self.top / "crates/provision" if at_crate else self.top
        path = f"{out}:{self.top}/tools:{os.environ.get('PATH', '/usr/bin:/bin')}"
        self.environment = {"PATH": path, "HOME": str(room), "LC_ALL": "C.UTF-8", "TMPDIR": str(room / "tmp")}

    def run(self, command: str) -> str:
        """All that a command prints."""
        here = TEMPORARY.sub(f"{self.room}/tmp/", " " + command)
        done = subprocess.run(["bash", "-c", here], cwd=self.folder, env=self.environment, check=False,
                              stdin=subprocess.DEVNULL, stdout=subprocess.PIPE, stderr=subprocess.STDOUT)
        return done.stdout.decode(errors="backslashreplace").replace(f"{self.room}/tmp/", "/tmp/")

    def program(self, words: str, given: str) -> str:
        done = subprocess.run([self.top / "crates/provision/out/provision", *words.split()],
                              input=given.encode(), capture_output=True, check=False)
        return done.stdout.decode()


def tell(place: str, command: str, wanted: str, got: str) -> None:
    print(f"{place}: {command}\n  wanted: {wanted!r}\n  got:    {got!r}")


def check_image(place: str, block: Block, last: str, scratch: Scratch, tally: Tally) -> str:
    """Check a block of an image; the image."""
    text = "".join(line[len(INDENT):] + "\n" for line in block.lines)
    tally.images += 1
    try:
        for _ in ImageReader(text.encode().splitlines(keepends=True)).nodes():
            pass
    except Trouble as fault:
        tally.faults += 1
        print(f"{place}: {fault}")
    if (found := re.search(r"With `(systemd-[^`]*)` it gives", block.before)) and last:
        got = scratch.program(found[1], last)
        if got != text:
            tally.faults += 1
            tell(place, found[1], text, got)
    return text


def check_document(path: Path, program: Path, tally: Tally) -> None:
    lines = plain_text(path)
    name = path.relative_to(TOP)
    at_crate = any(line.startswith(PROMPT) and "out/provision" in line for line in lines)
    last = ""
    with tempfile.TemporaryDirectory(prefix="provision-examples-") as room:
        scratch = Scratch(Path(room), program, at_crate)
        for block in blocks_of(lines):
            if block.reason is not None:
                tally.skipped += 1
                print(f"{name}:{block.line}: not run: {block.reason}")
                continue
            bare = [line[len(INDENT):] for line in block.lines]
            if re.match(r"tree-image [12]$", bare[0]) and bare[-1] == "end":
                last = check_image(f"{name}:{block.line}", block, last, scratch, tally)
            for number, command, wanted in commands_of(block):
                tally.commands += 1
                got = scratch.run(command)
                if got != wanted:
                    tally.faults += 1
                    tell(f"{name}:{number}", command, wanted, got)


def documents() -> list[Path]:
    return [TOP / "README.md", *sorted(TOP.glob("docs/*.md")), *sorted(TOP.glob("examples/*.md")),
            *sorted(TOP.glob("man/*"))]


def program_of(words: list[str]) -> Path:
    """The built program."""
    given = words[0] if words else os.environ.get("CHECK_PROGRAM")
    return Path(given or TOP / "crates/provision/out/provision").resolve()


def main(words: list[str]) -> int:
    program = program_of(words)
    if not program.is_file():
        print(f"examples: no program at {program}")
        return 1
    tally = Tally()
    for path in documents():
        check_document(path, program, tally)
    print(f"examples: {tally.commands} commands and {tally.images} images, {tally.faults} differ, "
          f"{tally.skipped} blocks not run")
    return 1 if tally.faults or not tally.commands else 0


if __name__ == "__main__":
    sys.exit(main(sys.argv[1:]))
