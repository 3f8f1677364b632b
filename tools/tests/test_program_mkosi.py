"""The example for mkosi under mkosi itself, over a root without packages; skipped where mkosi is absent or too old."""

import os
import re
import shutil
import subprocess
import tarfile
import unittest

from tests.builder_helper import BuilderCase
from tests.helper import TOOLS
from tests.program import PROGRAM

EXAMPLE = TOOLS.parent / "examples/mkosi"
LEAST = 20  # earlier versions need a running systemd
ROOT = {
    "etc/passwd": "root:x:0:0::/root:/bin/sh\n", "etc/group": "root:x:0:\n", "srv/text": "a much longer text",
    "usr/lib/os-release": "ID=custom\nVERSION_ID=1\n", "usr/lib/sysusers.d/a.conf": "u app -\n",
    # mkosi runs systemd's own tools first, which write over a part of the text.
    "usr/lib/tmpfiles.d/a.conf": "d /var/lib/app 0750 app app\nw /srv/text - - - - new\n",
}
SETTINGS = "[Distribution]\nDistribution=custom\n\n[Output]\nFormat=tar\nCompressOutput=none\n\n[Content]\n" \
           "SourceDateEpoch=1767225600\nSkeletonTrees=root\n"


def version() -> int:
    """The version of mkosi; 0 if there is none."""
    if shutil.which("mkosi") is None:
        return 0
    said = subprocess.run(["mkosi", "--version"], capture_output=True, text=True, timeout=30, check=False).stdout
    found = re.search(r"\d+", said)
    return int(found[0]) if found else 0


@unittest.skipUnless(PROGRAM, "CHECK_PROGRAM names no program")
class Mkosi(BuilderCase):
    def setUp(self) -> None:
        super().setUp()
        if version() < LEAST:
            self.skipTest(f"mkosi is not installed, or older than {LEAST}")
        for name, text in ROOT.items():
            path = self.room / "root" / name
            path.parent.mkdir(parents=True, exist_ok=True)
            path.write_text(text)
        (self.room / "root/run").mkdir()
        (self.room / "mkosi.conf").write_text(SETTINGS)
        shutil.copy(EXAMPLE / "mkosi.finalize", self.room)
        self.put_tools()

    def put_tools(self) -> None:
        """The command and the program in one folder, which mkosi lets its scripts see."""
        self.tools = self.room / "tools"
        shutil.copytree(TOOLS / "builder", self.tools / "builder", ignore=shutil.ignore_patterns("__pycache__"))
        for module in TOOLS.glob("*.py"):
            shutil.copy(module, self.tools)
        os.rename(self.tools / "provision_image.py", self.tools / "provision-image")
        shutil.copy(PROGRAM, self.tools / "provision")

    def test_the_last_step_of_a_build(self):
        try:
            done = subprocess.run(["mkosi", "--force", "--extra-search-path", self.tools, "build"], cwd=self.room,
                                  capture_output=True, text=True, timeout=300, check=False)
        except subprocess.TimeoutExpired:
            self.skipTest("mkosi takes too long here")
        if "finalize" not in done.stderr + done.stdout:
            self.skipTest(f"mkosi does not build here: {done.stderr.splitlines()[-1:]}")
        self.assertEqual(done.returncode, 0, done.stderr)
        with tarfile.open(self.room / "image.tar") as tar:
            self.assertEqual(tar.extractfile("./srv/text").read(), b"new")
            folder = tar.getmember("./var/lib/app")
            self.assertEqual((folder.uid, folder.mode, folder.mtime), (999, 0o750, 1767225600))


if __name__ == "__main__":
    unittest.main()
