"""What tools/install.sh puts where, over a program that does little."""

import os
import re
import shutil
import subprocess
import unittest
from pathlib import Path

from tests.helper import TOOLS, ToolCase, archive, folder_member

TOP = TOOLS.parent
LINK = re.compile(r"\]\(([^)#]*)(?:#[^)]*)?\)")
COMMANDS = ("provision", "provision-image", "tar_to_image", "image_to_tar")


class Installing(ToolCase):
    def setUp(self) -> None:
        super().setUp()
        self.to = self.room / "to"
        self.program = self.room / "program"
        self.program.write_text("#!/bin/sh\ncat\n")
        self.program.chmod(0o755)

    def install(self, *words: object, top: Path = TOP, path: str = "/usr/bin:/bin",
                prefix: str = "/usr") -> subprocess.CompletedProcess:
        return subprocess.run([top / "tools/install.sh", *words], capture_output=True, text=True, check=False,
                              env={"PATH": path, "DESTDIR": str(self.to), "PREFIX": prefix})

    def copy(self) -> Path:
        """A repository of which only the first file that is needed is there."""
        top = self.room / "top"
        (top / "tools").mkdir(parents=True)
        shutil.copy(TOOLS / "install.sh", top / "tools")
        (top / "crates/provision").mkdir(parents=True)
        shutil.copy(TOP / "CHANGELOG.md", top)
        return top

    def test_what_is_missing_is_named(self):
        top = self.copy()
        done = self.install("/none", top=top)
        self.assertEqual(done.returncode, 1)
        said = done.stderr.splitlines()
        self.assertEqual(said[0], "install: /none is missing")
        for name in ("tools/tar_to_image.py", "tools/hard_links.py", "tools/builder/cli.py", "man/tar_to_image.1",
                     "docs/BUILDING.md", "completions/provision-image.bash"):
            self.assertIn(f"install: {top}/{name} is missing", said)
        self.assertNotIn(f"install: {top}/CHANGELOG.md is missing", said)
        self.assertFalse(self.to.exists())

    def test_the_commands_run(self):
        done = self.install(self.program)
        self.assertEqual((done.returncode, done.stderr), (0, ""))
        places = {name: self.to / "usr/bin" / name for name in COMMANDS}
        for name, place in places.items():
            self.assertTrue(os.access(place, os.X_OK), name)
        root = archive(folder_member(b"./"))
        image = subprocess.run([places["tar_to_image"]], input=root, capture_output=True, check=True).stdout
        self.assertEqual(image, b"tree-image 2\nd / 0755 0 0 0,0,0,0 - - - -\nend\n")
        self.assertEqual(subprocess.run([places["image_to_tar"]], input=image, capture_output=True, check=True).stdout, root)
        made = subprocess.run([places["provision-image"], "apply", "-", "-"], input=root, capture_output=True, check=True)
        self.assertEqual(made.stdout, root)
        said = subprocess.run([places["provision-image"], "--version"], capture_output=True, text=True, check=True).stdout
        newest = re.search(r"^## ([0-9.]+)", (TOP / "CHANGELOG.md").read_text(), re.MULTILINE)
        self.assertEqual(said, f"provision-image {newest[1]}\n")

    def test_each_manual_page_and_the_completion(self):
        self.install(self.program)
        share = self.to / "usr/share"
        pages = sorted(page.name for page in share.glob("man/man?/*"))
        self.assertEqual(pages, sorted(page.name for page in (TOP / "man").iterdir()))
        self.assertTrue((share / "bash-completion/completions/provision-image").is_file())

    def test_links_of_documents_lead_to_what_is_installed(self):
        self.install(self.program)
        links = 0
        for document in (self.to / "usr/share/doc/provision").rglob("*.md"):
            for link in LINK.findall(document.read_text()):
                if link and "://" not in link:
                    links += 1
                    self.assertTrue((document.parent / link).exists(), f"{document.name}: {link}")
        self.assertGreater(links, 20)

    def test_another_prefix_and_a_second_time(self):
        for _ in range(2):
            self.assertEqual(self.install(self.program, prefix="/opt/it").returncode, 0)
        self.assertTrue((self.to / "opt/it/bin/provision-image").resolve().is_file())
        self.assertEqual(sorted(os.listdir(self.to)), ["opt"])

    def test_it_says_how_long_proving_takes_before_it_begins(self):
        top = self.copy()
        tools = self.room / "bin"
        tools.mkdir()
        (tools / "rt").write_text("#!/bin/sh\necho proving >&2\nexit 1\n")
        (tools / "rt").chmod(0o755)
        said = self.install(top=top, path=f"{tools}:/usr/bin:/bin").stderr.splitlines()
        self.assertIn("processor time", said[1])
        self.assertEqual(said[3:5], ["proving", "install: rt run failed"])


if __name__ == "__main__":
    unittest.main()
