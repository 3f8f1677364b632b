#!/usr/bin/env python3
"""provision-image: what a root file system's tmpfiles.d and sysusers.d configuration asks for, for image builders.

See provision-image(1), or `provision-image --help`. The package `builder` beside this file has the commands.
"""

import sys
from pathlib import Path

sys.path.insert(0, str(Path(__file__).resolve().parent))

from builder.cli import main  # noqa: E402

if __name__ == "__main__":
    sys.exit(main())
