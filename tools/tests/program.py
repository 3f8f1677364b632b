"""What the tests with the built program share; CHECK_PROGRAM in the environment names it."""

import os
import subprocess
import sys
from pathlib import Path

from tests.helper import TOOLS, ToolCase

from builder.program import Program  # noqa: E402

PROGRAM = str(Path(os.environ["CHECK_PROGRAM"]).resolve()) if os.environ.get("CHECK_PROGRAM") else ""
COMMAND = TOOLS / "provision_image.py"
NOW = "2026-01-01T00:00:00Z"


class ProgramCase(ToolCase):
    """A test with the program, and with a folder of its own."""

    def setUp(self) -> None:
        super().setUp()
        self.program = Program(PROGRAM)

    def command(self, *words: str | Path, status: int = 0, given: bytes = b"") -> tuple[str, str]:
        """Run provision-image in the folder; its standard output and standard error."""
        done = subprocess.run([sys.executable, COMMAND, "--program", PROGRAM, *words], cwd=self.room, input=given,
                              capture_output=True, check=False)
        output, errors = (text.decode(errors="backslashreplace") for text in (done.stdout, done.stderr))
        self.assertEqual(done.returncode, status, output + errors)
        return output, errors
