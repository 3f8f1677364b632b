"""What the tests share: running a tool, and making archives by hand."""

import shutil
import subprocess
import sys
import tempfile
import unittest
from pathlib import Path

TOOLS = Path(__file__).resolve().parent.parent
sys.path.insert(0, str(TOOLS))

from tar_stream import Member, archive_end, member_head, padding  # noqa: E402

ROOT_LINE = b"d / 0755 0 0 0,0,0,0 - - - -\n"


def run_tool(name: str, *words: str, given: bytes = b"") -> subprocess.CompletedProcess:
    return subprocess.run([sys.executable, str(TOOLS / name), *words], input=given,
                          capture_output=True, check=False)


def archive(*parts: Member | tuple[Member, bytes]) -> bytes:
    """An archive of members, with their contents beside them."""
    pieces = []
    for part in parts:
        member, content = part if isinstance(part, tuple) else (part, b"")
        member.size = len(content)
        pieces += [member_head(member), content, padding(len(content))]
    return b"".join(pieces) + archive_end(sum(map(len, pieces)))


def file_member(name: bytes, **fields) -> Member:
    return Member(name, b"0", mode=0o644, **fields)


def folder_member(name: bytes, **fields) -> Member:
    return Member(name, b"5", mode=0o755, **fields)


def image(*lines: bytes) -> bytes:
    """An image of a root alone and further lines."""
    return b"tree-image 2\n" + ROOT_LINE + b"".join(line + b"\n" for line in lines) + b"end\n"


class ToolCase(unittest.TestCase):
    """A test with a folder of its own."""

    def setUp(self) -> None:
        self.room = Path(tempfile.mkdtemp(prefix="provision-tools-"))
        self.addCleanup(shutil.rmtree, self.room)

    def need(self, *programs: str) -> None:
        for program in programs:
            if shutil.which(program) is None:
                self.skipTest(f"{program} is not installed")

    def sh(self, script: str) -> None:
        """Run a script in the folder; its failure is the test's."""
        done = subprocess.run(["sh", "-euc", script], cwd=self.room, capture_output=True, check=False)
        self.assertEqual(done.returncode, 0, done.stderr.decode(errors="replace"))

    def to_image(self, tar: bytes, *words: str, said: bytes | None = b"", status: int = 0) -> bytes:
        return self.tool("tar_to_image.py", tar, words, said, status)

    def to_tar(self, text: bytes, *words: str, said: bytes | None = b"", status: int = 0) -> bytes:
        return self.tool("image_to_tar.py", text, words, said, status)

    def tool(self, name, given, words, said, status) -> bytes:
        done = run_tool(name, *words, given=given)
        self.assertEqual(done.returncode, status, done.stderr.decode(errors="replace"))
        if said is not None:
            self.assertEqual(done.stderr, said)
        return done.stdout
