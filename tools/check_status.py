#!/usr/bin/env python3
"""Runs the built program once for each exit status and compares status and output.

0 done, 1 words without a meaning and no free number, 65 an invalid line, 66 no
image or a folder that cannot be run on, 71 no memory (a limit on it by ulimit
-v), 73 a refused line, 74 input that cannot be read (a directory, or none), 75
stopped, 76 output that cannot be written (/dev/full, or none), 77 a folder that
cannot be read (its name is too long). The wanted outputs are written by hand.

    check_status.py [PROGRAM]      crates/provision/out/provision, or CHECK_PROGRAM
"""

import base64
import subprocess
import sys
import tempfile
from dataclasses import dataclass
from pathlib import Path

from check_examples import program_of

NOW = "--now=1970-01-12T13:46:40Z"
CREATE = ("systemd-tmpfiles", "--create", NOW)
TOO_LONG = 67108865  # one byte more than an image may have
MEMORY = 20000  # KiB; the program begins in 5000, and the input alone has 30 MB


def directory(path: str, stamps: str = "0,0,0,0") -> str:
    return f"d {path} 0755 0 0 {stamps} - - - -\n"


def file_of(path: str, text: str) -> str:
    return f"f {path} 0644 0 0 0,0,0,0 - - - {base64.b64encode(text.encode()).decode()}\n"


def image(*lines: str, root: str = "0,0,0,0") -> str:
    return "tree-image 2\n" + directory("/", root) + "".join(lines) + "end\n"


def configured(line: str, *lines: str) -> str:
    """An image with one configuration file of this line; further objects come before it."""
    return image(*lines, directory("/etc"), directory("/etc/tmpfiles.d"),
                 file_of("/etc/tmpfiles.d/a.conf", line + "\n"))


GROUPS = "".join(f"g{number}:x:{number}:\n" for number in range(1, 1000))
ACCOUNTS = image(directory("/etc"), file_of("/etc/group", GROUPS), directory("/etc/sysusers.d"),
                 file_of("/etc/sysusers.d/a.conf", "g app -\n"))
LINE = "d /run/app 0750 0 0"
CHANGED = "0,0,1000000000000,1000000000000"
NEW = "1000000000000,1000000000000,1000000000000,1000000000000"
CONFIGURATION = (directory("/etc"), directory("/etc/tmpfiles.d"), file_of("/etc/tmpfiles.d/a.conf", LINE + "\n"))
ROOTED = (*CREATE, "--root=r")
FOLDER = "mkdir -p r/tree/etc/tmpfiles.d; echo 'd /run/app 0750 0 0' > r/tree/etc/tmpfiles.d/a.conf"
DONE = image(*CONFIGURATION, directory("/run", NEW), f"d /run/app 0750 0 0 {NEW} - - - -\n", root=CHANGED)
STAGED = image(f"d /.#tf-run 0700 0 0 {NEW} - - - -\n", *CONFIGURATION, root=CHANGED)
REFUSED = configured("d /a/b", "l /a 0777 0 0 0,0,0,0 - - - etc\n")


@dataclass(frozen=True)
class Case:
    """A run: its words, its input, its wanted status and output, how its ends are bent, and what is there before."""

    name: str
    words: tuple[str, ...]
    given: str
    status: int
    wanted: str
    ends: str = ""
    limit: int = 0
    before: str = ""  # what makes a folder, in the folder in which the program runs


CASES = (
    Case("done", CREATE, configured(LINE), 0, DONE),
    Case("a message and the image", ("systemd-tmpfiles", "--report"), image(), 0, ": repeatable\n" + image()),
    Case("no words", (), "", 1, ": usage\n"),
    Case("odd words", ("systemd-tmpfiles", "--create", "--no-such"), image(), 1, ": usage\n"),
    Case("no free number", ("systemd-sysusers", NOW), ACCOUNTS, 1, ": no free id for app\n" + ACCOUNTS),
    Case("an invalid line", CREATE, configured("d"), 65, ": /etc/tmpfiles.d/a.conf:1: TooFew\n" + configured("d")),
    Case("no image", CREATE, "x\n", 66, ": bad image at line 1: BadHeader\n"),
    Case("a cut image", CREATE, image()[:-4], 66, ": bad image at line 3: Truncated\n"),
    Case("too long", CREATE, ": " + "a" * (TOO_LONG - 2), 66, ": bad image: TooLong\n"),
    Case("no memory", CREATE, ": " + "a" * 30000000, 71, "", limit=MEMORY),
    Case("a refused line", CREATE, REFUSED, 73,
         ": /etc/tmpfiles.d/a.conf:1: /a/b refused at /a: link\n" + REFUSED),
    Case("a file word not found", (*CREATE, "none.conf"), image(), 73, ": none.conf: not found\n" + image()),
    Case("a directory as input", CREATE, "", 74, "", ends="< /"),
    Case("no input", CREATE, "", 74, "", ends="<&-"),
    Case("stopped", (*CREATE, "--stop-after=1"), configured(LINE), 75, ": stopped after 1 steps\n" + STAGED),
    Case("a full output", CREATE, configured(LINE), 76, "", ends="> /dev/full"),
    Case("no output", CREATE, configured(LINE), 76, "", ends=">&-"),
    Case("a folder", ROOTED, "", 0, "", before=FOLDER),
    Case("a folder, stopped", (*ROOTED, "--stop-after=1"), "", 75, ": stopped after 1 steps\n", before=FOLDER),
    Case("no folder", ROOTED, "", 66, ": bad folder: NotPrepared\n"),
    Case("a folder without its tree", ROOTED, "", 66, ": bad folder: NotPrepared\n", before="mkdir r"),
    Case("a manifest that is no image", ROOTED, "", 66, ": bad folder: BadManifest\n", before=FOLDER + "; echo x > r/manifest"),
    Case("a link in a folder", ROOTED, "", 66, ": bad folder: OddObject\n", before=FOLDER + "; ln -s etc r/tree/a"),
    Case("a folder with too long a name", (*CREATE, "--root=" + "r" * 300), "", 77, ""),
    Case("a folder without a name", (*CREATE, "--root="), "", 1, ": usage\n"),
    Case("two folders", (*ROOTED, "--root=r"), "", 1, ": usage\n", before=FOLDER),
)


def run(program: Path, case: Case) -> tuple[int, str]:
    """The status and the output of a case."""
    limit = f"ulimit -v {case.limit}; " if case.limit else ""
    script = f'{case.before or ":"}; {limit}exec "$@" {case.ends}'
    with tempfile.TemporaryFile() as given, tempfile.TemporaryDirectory() as room:
        given.write(case.given.encode())
        given.seek(0)
        done = subprocess.run(["bash", "-c", script, "", str(program.resolve()), *case.words], stdin=given,
                              cwd=room, capture_output=True, check=False)
    return done.returncode, (done.stdout + done.stderr).decode(errors="backslashreplace")


def short(text: str) -> str:
    return repr(text if len(text) <= 400 else text[:400] + "..")


def main(words: list[str]) -> int:
    program = program_of(words)
    if not program.is_file():
        print(f"status: no program at {program}")
        return 1
    faults = 0
    for case in CASES:
        status, output = run(program, case)
        if (status, output) != (case.status, case.wanted):
            faults += 1
            print(f"{case.name}: wanted {case.status} {short(case.wanted)}\n  got {status} {short(output)}")
    shown = " ".join(str(status) for status in sorted({case.status for case in CASES}))
    print(f"status: {len(CASES)} runs for the statuses {shown}, {faults} differ")
    return 1 if faults else 0


if __name__ == "__main__":
    sys.exit(main(sys.argv[1:]))
