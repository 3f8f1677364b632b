"""What the tests of provision-image share: running it, a program that does little, and reading archives back."""

import os
import subprocess
import sys
import tarfile
from dataclasses import dataclass, field
from io import BytesIO
from pathlib import Path

from tests.helper import TOOLS, ToolCase

TOOL = TOOLS / "provision_image.py"
COPY = "#!/bin/sh\ncat\n"  # a program that leaves each image as it is


@dataclass
class Thing:
    """One object as a file system holds it; the names of a hard link share it."""

    kind: bytes
    mode: int
    owner: tuple[int, int]
    mtime: float
    target: str = ""
    device: tuple[int, int] = (0, 0)
    content: bytes = b""
    records: dict[str, str] = field(default_factory=dict)

    def essence(self) -> tuple:
        """All but the timestamp."""
        return (self.kind, self.mode, self.owner, self.target, self.device, self.content, self.records)


def path_of(name: str) -> str:
    """The path that the name of a member stands for."""
    return "/" + "/".join(part for part in name.split("/") if part not in ("", "."))


def thing_of(tar: tarfile.TarFile, it: tarfile.TarInfo) -> Thing:
    """The object of a member that is not a hard link."""
    content = tar.extractfile(it).read() if it.isreg() else b""
    records = {key: value for key, value in it.pax_headers.items()
               if key.startswith(("SCHILY.", "PROVISION.")) and key not in ("SCHILY.devmajor", "SCHILY.devminor")}
    return Thing(it.type, it.mode, (it.uid, it.gid), it.mtime, it.linkname if it.issym() else "",
                 (it.devmajor, it.devminor) if it.isdev() and not it.isfifo() else (0, 0), content, records)


def unpack(*archives: bytes) -> dict[str, Thing]:
    """A root and the layers over it, unpacked one after another as the OCI image specification says."""
    things: dict[str, Thing] = {}
    for data in archives:
        with tarfile.open(fileobj=BytesIO(data)) as tar:
            for it in tar:
                put(things, tar, it)
    return things


def put(things: dict[str, Thing], tar: tarfile.TarFile, it: tarfile.TarInfo) -> None:
    """Unpack one member over what is there."""
    path = path_of(it.name)
    above, _, name = path.rpartition("/")
    if path != "/" and things[above or "/"].kind != tarfile.DIRTYPE:
        raise AssertionError(f"{path} is not in a directory")
    if name.startswith(".wh."):
        remove(things, f"{above}/{name[4:]}")
        return
    new = things[path_of(it.linkname)] if it.islnk() else thing_of(tar, it)
    old = things.get(path)
    if old is not None and (old.kind != tarfile.DIRTYPE or new.kind != tarfile.DIRTYPE):
        remove(things, path)
    things[path] = new


def remove(things: dict[str, Thing], path: str) -> None:
    """Remove a path that is there, with all below it."""
    del things[path]
    for other in [it for it in things if it.startswith(path + "/")]:
        del things[other]


def shared_names(things: dict[str, Thing]) -> list[list[str]]:
    """The names of each object that has several."""
    names: dict[int, list[str]] = {}
    for path, thing in things.items():
        names.setdefault(id(thing), []).append(path)
    return sorted(sorted(group) for group in names.values() if len(group) > 1)


class BuilderCase(ToolCase):
    """A test that runs provision-image, over a program of its own."""

    def setUp(self) -> None:
        super().setUp()
        self.program = self.room / "program"
        self.set_program(COPY)

    def set_program(self, script: str) -> None:
        self.program.write_text(script)
        self.program.chmod(0o755)

    def put_file(self, name: str, data: bytes) -> str:
        (self.room / name).write_bytes(data)
        return str(self.room / name)

    def run_it(self, *words: str, given: bytes = b"", env: dict[str, str] | None = None) -> subprocess.CompletedProcess:
        """Run the command in the folder of the test."""
        return subprocess.run([sys.executable, str(TOOL), "--program", str(self.program), *words], input=given,
                              capture_output=True, check=False, cwd=self.room, env={**os.environ, **(env or {})})

    def done(self, *words: str, given: bytes = b"", status: int = 0, env: dict[str, str] | None = None) -> bytes:
        """What the command writes to standard output, if it ends with this status."""
        it = self.run_it(*words, given=given, env=env)
        self.assertEqual(it.returncode, status, it.stderr.decode(errors="replace"))
        return it.stdout

    def fails(self, *words: str, said: str, given: bytes = b"") -> None:
        """The command cannot run, and says why in one line."""
        it = self.run_it(*words, given=given)
        self.assertEqual((it.returncode, it.stderr.decode()), (2, f"provision-image: error: {said}\n"))

    def read(self, name: str) -> bytes:
        return Path(self.room / name).read_bytes()
