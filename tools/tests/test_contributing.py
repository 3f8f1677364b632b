"""What CONTRIBUTING.md names is there: its searches find something, its files exist, and its edit is one of the crate's."""

import re
import shutil
import subprocess
import unittest

from tests.helper import TOOLS

TOP = TOOLS.parent
TEXT = (TOP / "CONTRIBUTING.md").read_text()
SEARCH = re.compile(r"^\s{4,}(git grep .+)$|`(git grep [^`]+)`", re.MULTILINE)
FILE = re.compile(r"`([\w./-]+\.(?:rt|antt|py|md|1|bash|txt))`")
EDIT = re.compile(r"`(crates/[\w/-]+\.edit)`:\n\n((?:    .+\n)+)")
OF_THE_KIT = {"SHORTER_PROOFS.md", "docs/ANSWERS.md", "std/LEMMAS.md"}
OF_ANY_CRATE = {"FILE.antt", "proofs/MODULE/FUNCTION/Answers.antt", "src/*_laws.rt"}


class Contributing(unittest.TestCase):
    @unittest.skipUnless(shutil.which("git") and (TOP / ".git").exists(), "no git repository")
    def test_searches_find_something(self):
        commands = [found[1] or found[2] for found in SEARCH.finditer(TEXT)]
        self.assertGreater(len(commands), 6)
        for command in commands:
            done = subprocess.run(["bash", "-c", command], cwd=TOP, capture_output=True, text=True, check=False)
            others = [line for line in done.stdout.splitlines() if not line.startswith("CONTRIBUTING.md")]
            self.assertTrue(others, f"{command}: finds nothing {done.stderr}")

    def test_files_exist(self):
        paths = [str(path.relative_to(TOP)) for part in ("crates", "docs", "man", "tools", "bench", "completions")
                 for path in (TOP / part).rglob("*") if "out" not in path.parts]
        paths += [path.name for path in TOP.iterdir()]
        for name in set(FILE.findall(TEXT)) - OF_THE_KIT - OF_ANY_CRATE:
            self.assertTrue(any(path == name or path.endswith("/" + name) for path in paths), f"{name} is missing")

    def test_the_edit_is_one_of_the_crate(self):
        found = EDIT.search(TEXT)
        self.assertIsNotNone(found)
        shown = "".join(line[4:] + "\n" for line in found[2].splitlines())
        self.assertEqual(shown, (TOP / found[1]).read_text())


if __name__ == "__main__":
    unittest.main()
