"""The page of what to believe is what the imports of the clauses reach, and no more."""

import subprocess
import sys

from tests.helper import TOOLS, ToolCase

CRATES = """\
# the lowest first
low: thiserror
top: low
other: low
"""
LOW_TYPES = "pub struct Line {}\n"
LOW_WORDS = """\
-- Words.
use Rattle.std.specs.Prelude.{Bool, List}
use Rattle.low.specs.declared.types.Line.{Line}

-- a word
abbrev pub is_word : Line → Bool
is_word line = by line
  where
    by : Line → Bool
    by line = true

-- a word that nothing reaches
abbrev pub is_long : Line → Bool
is_long line = is_word line
"""
LOW_FIRST = """\
-- The first of them.
use Rattle.low.specs.Words as words

pub record First (n : Nat) : Type 0 where
  pub at : words.is_word n

-- a comment of two
-- lines
abbrev pub unused : Nat
unused = 0
"""
TOP_ENDS = """\
-- How it ends.
use Rattle.low.specs.First.{First}
use Rattle.low.specs.Words.{is_word as word, is_long}

module _ (n : Nat) where
  pub ended : Type 0
  ended = First n

  pub begun : Type 0
  begun = ended
"""
TOP = """\
//! A crate.
ghost use Rattle.std.specs.Prelude.{◌≡◌};
ghost use Rattle.top.specs.Ends.{
    begun, ended,
};
ghost use Rattle.low.specs.Words.{is_word, is_long};

/// Goes.
pub fn go(a: u8) -> u8
    requires { is_word a }
    // What holds at the end.
    ensures ok { ended a.{
        result
    } }
    ensures free { result ≡ a }
{
    a
}

/// A law.
pub fn all_is_well()
    ensures { begun 1 }
{}
"""
ROWS = """\
| promise | call | clause |
|---|---|---|
| **one**: it goes well | `top::go` | `ok` (`First`: `free`) |
| **two**: it is well | a law | `all_is_well` |
| **three**: it is free | each call | `free` |
| **four**: nothing is said of it | every call | the check itself |
"""
THEOREMS = """\
### Theorem 1: it goes

*Call and clause:* `top::go`, `free`; a law, `all_is_well`;
over bytes `top::go`, `ok`.
*If* it does, *then* it does.
"""


class Beliefs(ToolCase):
    def setUp(self):
        super().setUp()
        (self.room / "docs").mkdir()
        (self.room / "crates.txt").write_text(CRATES)
        self.put("low/src/types.rt", LOW_TYPES)
        self.put("low/specs/Words.antt", LOW_WORDS)
        self.put("low/specs/First.antt", LOW_FIRST)
        self.put("low/specs/Lib.antt", "pub mod Words\npub mod First\n")
        self.put("top/specs/Ends.antt", TOP_ENDS)
        self.put("top/src/lib.rt", TOP)
        self.put("other/src/lib.rt", "//! Nothing.\n")

    def put(self, name: str, text: str) -> None:
        path = self.room / "crates" / name
        path.parent.mkdir(parents=True, exist_ok=True)
        path.write_text(text)

    def run_check(self, *words: str) -> tuple[int, str]:
        done = subprocess.run([sys.executable, TOOLS / "check_beliefs.py", *words, self.room], capture_output=True,
                              text=True, check=False)
        self.assertEqual(done.stderr, "")
        return done.returncode, done.stdout

    def page(self, promises: str) -> str:
        (self.room / "docs/PROMISES.md").write_text(promises)
        self.assertEqual(self.run_check("--write"), (0, ""))
        return (self.room / "docs/BELIEVE.md").read_text()

    def section(self, page: str, title: str) -> list[str]:
        return [it for it in page.split(f"## {title}\n")[1].split("\n## ")[0].splitlines() if it]

    def test_rows(self):
        page = self.page(ROWS)
        self.assertEqual(self.section(page, "one"), [
            "Clauses, with the lines that each reaches by itself: `top::go` (`ok`) 12.",
            "- low: `Words` 5, `First` 2",
            "- top: `Ends` 5",
            "Types: low: `Line`."])
        self.assertEqual(self.section(page, "two")[0],
                         "Clauses, with the lines that each reaches by itself: `top::all_is_well` 12.")
        # The premise of the call is read too.
        self.assertEqual(self.section(page, "three")[1:], ["- low: `Words` 5", "Types: low: `Line`."])
        self.assertNotIn("four", page)
        self.assertIn("| one | 12 | 3 | 2 |", page)

    def test_theorems(self):
        page = self.page(THEOREMS)
        self.assertEqual(self.section(page, "Theorem 1: it goes")[0],
                         "Clauses, with the lines that each reaches by itself: `top::all_is_well` 12, "
                         "`top::go` (`free`) 5, `top::go` (`ok`) 12.")

    def test_laws_and_any_call_in_theorems(self):
        page = self.page(THEOREMS.replace("`top::go`, `free`; a law, `all_is_well`;\nover bytes `top::go`, `ok`.",
                                          "law `top::all_is_well`; each call, `free` (`First`: `at`; `ok`); every call."))
        self.assertEqual(self.section(page, "Theorem 1: it goes")[0],
                         "Clauses, with the lines that each reaches by itself: `top::all_is_well` 12, "
                         "`top::go` (`free`) 5.")

    def test_a_law_that_a_crate_lends(self):
        page = self.page(THEOREMS.replace("`top::go`, `free`; a law, `all_is_well`;", "law `other::all_is_well`;"))
        self.assertIn("`top::all_is_well` 12", self.section(page, "Theorem 1: it goes")[0])

    def test_the_page_is_checked(self):
        (self.room / "docs/PROMISES.md").write_text(ROWS)
        status, said = self.run_check()
        self.assertEqual((status, said.splitlines()[0]),
                         (1, "docs/BELIEVE.md: no page docs/BELIEVE.md; write it by --write"))
        self.page(ROWS)
        self.assertEqual(self.run_check(), (0, "beliefs: 3 promises checked, 0 differ\n"))
        self.put("low/specs/Words.antt", LOW_WORDS.replace("    by line = true", "    by line =\n        true"))
        status, said = self.run_check()
        self.assertEqual(status, 1)
        self.assertIn("one: the page has", said)
        self.assertIn("3 promises checked", said)

    def test_what_nothing_reaches_is_free(self):
        self.page(ROWS)
        self.put("low/specs/First.antt", LOW_FIRST.replace("unused = 0", "unused =\n    1"))
        self.put("other/specs/More.antt", "-- More.\nabbrev pub more : Nat\nmore = 2\n")
        self.assertEqual(self.run_check()[0], 0)

    def test_a_promise_more_or_less(self):
        self.page(ROWS)
        (self.room / "docs/PROMISES.md").write_text("\n".join(ROWS.splitlines()[:3]) + "\n")
        status, said = self.run_check()
        self.assertEqual(status, 1)
        self.assertIn("no promise of docs/PROMISES.md: two", said)
        (self.room / "docs/PROMISES.md").write_text(ROWS.replace("**two**", "**twice**"))
        self.assertIn("not on the page: twice", self.run_check()[1])

    def test_a_page_that_checks_nothing_fails(self):
        (self.room / "docs/PROMISES.md").write_text("No promise.\n")
        self.run_check("--write")
        self.assertEqual(self.run_check()[0], 1)

    def test_the_head_stays(self):
        self.page(ROWS)
        page = self.room / "docs/BELIEVE.md"
        page.write_text("# Another head\n" + page.read_text()[page.read_text().index("<!--"):])
        self.assertEqual(self.run_check()[0], 0)
        self.assertTrue(self.page(THEOREMS).startswith("# Another head\n<!--"))

    def test_files_that_use_each_other_are_in_order(self):
        self.put("low/specs/Alpha.antt",
                 "-- Last.\nuse Rattle.low.specs.Zulu.{zulu}\n\nabbrev pub alpha : Nat\nalpha = zulu\n")
        self.put("low/specs/Zulu.antt", "-- First.\n\nabbrev pub zulu : Nat\nzulu = 1\n")
        self.put("top/src/lib.rt", TOP.replace("{is_word, is_long}", "{is_word}").replace(
            "//! A crate.\n", "//! A crate.\nghost use Rattle.low.specs.Alpha.{alpha};\n").replace(
            "result ≡ a", "result ≡ alpha"))
        page = self.page(ROWS)
        self.assertIn("- low: `Zulu` 2, `Alpha` 2, `Words` 5", self.section(page, "three"))
