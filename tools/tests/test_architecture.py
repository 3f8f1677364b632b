"""docs/ARCHITECTURE.md names each crate of crates.txt once, with the crates that it stands on."""

import re
import unittest

from tests.helper import TOOLS

TOP = TOOLS.parent
ROW = re.compile(r"(\w+) \| [^|]+(?: \| (.+))?")
EXCEPT = "all earlier crates except "


def crates() -> dict[str, set[str]]:
    """The crates in their order, each with those of the repository that it uses."""
    rows = (line.split("#")[0].split(":") for line in (TOP / "crates.txt").read_text().splitlines())
    used = {row[0].strip(): row[1].split() for row in rows if len(row) == 2}
    return {name: {it for it in words if it in used} for name, words in used.items()}


def is_program(name: str) -> bool:
    return not name.startswith(("test_", "bench_"))


class Architecture(unittest.TestCase):
    def setUp(self) -> None:
        text = (TOP / "docs/ARCHITECTURE.md").read_text()
        section = text.split("\n## The crates\n")[1].split("\n## ")[0]
        self.rows = {found[1]: found[2] for line in section.splitlines() if (found := ROW.fullmatch(line))}
        self.rows.pop("crate")

    def test_each_crate_has_a_row(self):
        self.assertEqual(sorted(self.rows), sorted(crates()))

    def test_what_each_stands_on(self):
        above: set[str] = set()
        for name, used in crates().items():
            text = self.rows[name]
            if is_program(name):
                words = set(re.findall(r"\w+_\w+", text))
                self.assertEqual(above - words if text.startswith(EXCEPT) else words, used, f"{name} in crates.txt")
            above.add(name)

    def test_the_longest_chain(self):
        depth: dict[str, int] = {}
        for name, used in crates().items():
            depth[name] = 1 + max((depth[it] for it in used), default=0)
        longest = max(number for name, number in depth.items() if is_program(name))
        named = re.search(r"No chain of crates has more than nine: ([^.]+)\.", (TOP / "docs/ARCHITECTURE.md").read_text())
        chain = re.findall(r"\w+", named[1]) if named else []
        self.assertEqual((longest, len(chain)), (9, 9))
        for lower, upper in zip(chain, chain[1:]):
            self.assertIn(lower, crates()[upper])


if __name__ == "__main__":
    unittest.main()
