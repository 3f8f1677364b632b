"""The version: the newest heading of CHANGELOG.md, which is the one place that has it."""

import re
from pathlib import Path

from .program import CannotRun

TOOLS = Path(__file__).resolve().parent.parent
HEADING = re.compile(r"^## (\d+(?:\.\d+)+)", re.MULTILINE)


def version() -> str:
    """The version number; CHANGELOG.md stands beside the installed tools, or at the top of the repository."""
    for folder in (TOOLS, TOOLS.parent):
        path = folder / "CHANGELOG.md"
        if path.is_file() and (found := HEADING.search(path.read_text())):
            return found[1]
    raise CannotRun("CHANGELOG.md, which has the version, is not found")
