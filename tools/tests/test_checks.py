"""The checks of documents find what is planted, and say nothing of what is right."""

import shutil
import subprocess
import sys
import unittest

from tests.helper import TOOLS, ToolCase

SOURCE = """\
/// Goes.
pub fn go(a: u8) -> u8
    ensures ok { result ≡ a }
    // ensures said { not a clause }
    ensures end { OnOk result }
{
    a
}

impl Store {
    pub fn put(&mut self)
        ensures { self.new ≡ self.old }
    {}
}

impl Tree for Store {
    fn step(&mut self)
        ensures kept { self.new ≡ self.old }
    {}
}

/// A law.
pub fn all_is_well()
    ensures { true }
{}
"""
PARTS = """\
pub fn lend(a: u8)
    ensures lent { true }
{}

pub(crate) fn take(a: u8)
    ensures taken { true }
{}

fn keep()
    ensures kept { true }
{}

pub fn forgotten()
    ensures gone { true }
{}

pub fn nothing_is_lost()
    ensures { true }
{}

impl Shelf {
    pub fn hold(&self)
        ensures held { true }
    {}

    fn drop(&self)
        ensures dropped { true }
    {}
}

impl<T: Tree> Drawer<T> {
    pub fn shut(&self)
        ensures closed { true }
    {}
}
"""
DEFINITIONS = """\
-- what is promised
record pub IsEnded (a : Nat) : Type 0 where
  constructor ended
  field
    pub whole : a
    pub part : a
"""


class Clauses(ToolCase):
    def said(self, *rows: str, header: str = "| promise | call | clause |", more: dict | None = None) -> list[str]:
        crate = self.room / "crates/thing"
        (crate / "src").mkdir(parents=True, exist_ok=True)
        for name, text in (more or {}).items():
            (self.room / "crates" / name).parent.mkdir(parents=True, exist_ok=True)
            (self.room / "crates" / name).write_text(text)
        (crate / "specs").mkdir(exist_ok=True)
        (crate / "src/lib.rt").write_text(SOURCE)
        (crate / "specs/Ended.antt").write_text(DEFINITIONS)
        lines = [header, "|---|---|---|", *rows] if header else list(rows)
        (self.room / "README.md").write_text("\n".join(lines) + "\n")
        done = subprocess.run([sys.executable, TOOLS / "check_clauses.py", self.room], capture_output=True,
                              text=True, check=False)
        said = done.stdout.splitlines()[:-1]
        self.assertEqual(done.returncode, 1 if said else 0, done.stdout + done.stderr)
        return said

    def test_what_is_right(self):
        self.assertEqual(self.said(
            "| a | `thing::go` | `ok`, `end` |",
            "| b | the same | `end` (`IsEnded`: `whole`, `part`) |",
            "| c | `go`; `Store::put` | `ok`; its one clause |",
            "| d | a law | `all_is_well` |",
            "| e | each call that does steps | `kept` |"), [])

    def test_what_is_wrong(self):
        self.assertEqual(self.said("| a | `thing::go` | `said` |"),
                         ["README.md:3: no clause `said` on `go`"])
        self.assertEqual(self.said("| a | `go` | `ok` |", "| b | the same | `kept` |"),
                         ["README.md:4: no clause `kept` on `go`"])
        self.assertEqual(self.said("| a | `go` | `ok` (`IsEnded`: `half`) |"),
                         ["README.md:3: no part `half` of `IsEnded`"])
        self.assertEqual(self.said("| a | `go` | `ok` (`IsBegun`) |"), ["README.md:3: no definition `IsBegun`"])
        self.assertEqual(self.said("| a | `thing::stop` | `ok` |"),
                         ["README.md:3: no call `thing::stop`", "README.md:3: no clause `ok` on any call"])
        self.assertEqual(self.said("| a | `go`, `Store::put` | its one clause |"),
                         ["README.md:3: `go` has not one clause"])
        self.assertEqual(self.said("| a | `go`, `step` | `kept` |"),
                         ["README.md:3: `go` has none of the clauses `kept`"])
        self.assertEqual(self.said("| a | a law | `all_is_bad` |"),
                         ["README.md:3: no clause `all_is_bad` on any call"])

    def test_what_is_private(self):
        more = {"other/src/lib.rt": "mod parts;\npub use parts::{Shelf, lend};\n", "other/src/parts.rt": PARTS}
        self.assertEqual(self.said("| a | `lend`; `Shelf::hold` | `lent`; `held` |", more=more), [])
        self.assertEqual(self.said("| a | `take` | `taken` |", more=more), ["README.md:3: `take` is private"])
        self.assertEqual(self.said("| a | `keep` | `kept` |", more=more), ["README.md:3: `keep` is private"])
        self.assertEqual(self.said("| a | `other::forgotten` | `gone` |", more=more),
                         ["README.md:3: `other::forgotten` is private"])
        self.assertEqual(self.said("| a | `Shelf::drop` | `dropped` |", more=more),
                         ["README.md:3: `Shelf::drop` is private"])
        self.assertEqual(self.said("| a | `Drawer::shut` | `closed` |", more=more),
                         ["README.md:3: `Drawer::shut` is private"])
        self.assertEqual(self.said("| a | a law | `nothing_is_lost` |", more=more),
                         ["README.md:3: `nothing_is_lost` is private"])
        self.assertEqual(self.said("| a | `go`, `take` of `other` | `ok`; `taken` |", more=more),
                         ["README.md:3: `take` is private"])
        self.assertEqual(self.said("- `take` takes (`taken`).", header="", more=more), ["README.md:1: `take` is private"])
        self.assertEqual(self.said("It never calls `other::take`.", header="", more=more),
                         ["README.md:1: `other::take` is private"])
        self.assertEqual(self.said("    $ `take`", "- `go` goes (`ok`).", header="", more=more), [])

    def test_what_is_lent_on(self):
        more = {"other/src/lib.rt": "pub mod parts;\n", "other/src/parts.rt": PARTS,
                "third/src/lib.rt": "pub use other::lend;\npub use other::{\n    forgotten,\n    nothing_is_lost,\n};\n"}
        self.assertEqual(self.said("| a | `third::lend`, `third::forgotten` | `lent`, `gone` |",
                                   "| b | `Drawer::shut` | its one clause |",
                                   "| c | laws of `third` | `nothing_is_lost` |", more=more), [])
        self.assertEqual(self.said("| a | `other::take` | `taken` |", more=more), ["README.md:3: `other::take` is private"])
        self.assertEqual(self.said("| a | `third::take` | `taken` |", more=more),
                         ["README.md:3: no call `third::take`", "README.md:3: no clause `taken` on any call"])

    def test_a_program(self):
        more = {"tool/src/main.rt": "fn run()\n    ensures status { true }\n{}\n"}
        self.assertEqual(self.said("| a | `run` of crates/tool | `status` |", more=more), [])

    def theorem(self, calls: str, number: int = 1) -> list[str]:
        return [f"### Theorem {number}: it goes", "", f"*Call and clause:* {calls}", "", "*If* it does, *then* it does."]

    def test_theorems(self):
        for calls in ("`thing::go`, `ok`, `end`.", "`thing::go`, `ok` (`IsEnded`: `whole`; `IsEnded`: `part`); `end`.",
                      "`thing::go`, `ok`; law `thing::all_is_well`.", "`thing::all_is_well`.", "`thing::go`, `ok`; every call, the check itself.",
                      "each call that does steps, `kept`; `Store::put`, its one clause.",
                      "`thing::go`,\n`ok`; a law, `all_is_well`."):
            self.assertEqual(self.said(*self.theorem(calls), header=""), [], calls)
        for calls, missing in (("`thing::go`, `said`.", "no clause `said` on `go`"),
                               ("`thing::go`, `ok`; `fine`.", "no clause `fine` on `go`"),
                               ("`thing::go`, `ok` (`IsEnded`: `half`).", "no part `half` of `IsEnded`"),
                               ("`thing::go`, `ok`; `Store::put`.", "no clause of `Store::put`"),
                               ("`thing::go`.", "no clause of `thing::go`"),
                               ("`ok`.", "no call in ``ok``"),
                               ("each call that does steps, `gone`.", "no clause `gone` on any call")):
            self.assertIn(f"README.md:3: {missing}", self.said(*self.theorem(calls), header=""))

    def test_private_calls_of_theorems(self):
        more = {"other/src/lib.rt": "mod parts;\npub use parts::{Shelf, lend};\n", "other/src/parts.rt": PARTS}
        self.assertEqual(self.said(*self.theorem("`other::lend`, `lent`."), header="", more=more), [])
        self.assertIn("README.md:3: `other::take` is private",
                      self.said(*self.theorem("`other::take`, `taken`."), header="", more=more))
        self.assertIn("README.md:3: `other::nothing_is_lost` is private",
                      self.said(*self.theorem("`other::nothing_is_lost`."), header="", more=more))

    def test_theorems_are_numbered_and_say_their_clauses(self):
        one = self.theorem("`thing::go`, `ok`.")
        self.assertEqual(self.said(*one, *self.theorem("`thing::go`, `end`.", 2), header=""), [])
        self.assertEqual(self.said(*one, *self.theorem("`thing::go`, `end`.", 3), header=""),
                         ["README.md:6: theorem 3 is the one of number 2"])
        self.assertEqual(self.said("### Theorem 1: it goes", "", "It does.", *self.theorem("`thing::go`, `ok`.", 2), header=""),
                         ["README.md:1: a theorem without a call and a clause"])
        self.assertEqual(self.said(*one, "### Theorem 2: it ends", header=""),
                         ["README.md:6: a theorem without a call and a clause"])

    def test_links_to_theorems(self):
        (self.room / "docs").mkdir(exist_ok=True)
        (self.room / "docs/PROMISES.md").write_text("\n".join(self.theorem("`thing::go`, `ok`.")) + "\n")
        link = "It [goes](docs/PROMISES.md#theorem-1-it-goes), [too](docs/PROMISES.md#{}), `go`."
        self.assertEqual(self.said("| a | `go` | `ok` |", "", link.format("theorem-1-it-goes")), [])
        self.assertEqual(self.said("| a | `go` | `ok` |", "", link.format("theorem-2")),
                         ["README.md:5: no heading `docs/PROMISES.md#theorem-2`"])
        self.assertEqual(self.said("| a | `go` | `ok` |", "", "## How it `goes` (2)", "[see](#how-it-goes-2), [so](#so)."),
                         ["README.md:6: no heading `#so`"])
        self.assertEqual(self.said("| a | `go` | `ok` |", "", "See Theorem 1.", "See Theorem 2."),
                         ["README.md:6: no theorem 2"])

    def test_texts(self):
        header = "| call | what its clauses say | of |"
        self.assertEqual(self.said("| `go` | `ok`: it goes; `end`: it ends | |", header=header), [])
        self.assertEqual(self.said("| `go` | `ok`: it goes; `fine`: it ends | |", header=header),
                         ["README.md:3: no clause `fine` on `go`"])
        self.assertEqual(self.said("| `Tree for Store` | `step`: `kept` | |", header=header), [])
        self.assertEqual(self.said("- `go` goes (`ok`: it does).", header=""), [])
        self.assertEqual(self.said("- `go` goes (`gone`: it does).", header=""),
                         ["README.md:1: no clause `gone` on `go`"])


class Examples(ToolCase):
    def said(self, text: str, name: str = "README.md") -> tuple[int, str]:
        """What the check says of a document, over a program that prints its words."""
        (self.room / "tools").mkdir(exist_ok=True)
        for tool in ("check_examples.py", "tree_image.py"):
            shutil.copy(TOOLS / tool, self.room / "tools")
        (self.room / "README.md").write_text("")
        (self.room / name).parent.mkdir(exist_ok=True)
        (self.room / name).write_text(text)
        program = self.room / "program"
        program.write_text("#!/bin/sh\necho \"$@\"\n")
        program.chmod(0o755)
        done = subprocess.run([sys.executable, self.room / "tools/check_examples.py", program],
                              capture_output=True, text=True, check=False)
        return done.returncode, done.stdout

    def test_both_forms(self):
        text = ("Here:\n\n    $ provision a b > x; echo $?\n    0\n    $ cat x\n    a b\n\nthen\n\n"
                "    $ cat x \\\n    x\n    a b\n    a b\n")
        self.assertEqual(self.said(text), (0, "examples: 3 commands and 0 images, 0 differ, 0 blocks not run\n"))
        text = "    $ out/provision a > /tmp/y; pwd | grep -o 'crates/.*'\n    crates/provision\n    $ cat /tmp/y\n    a\n"
        self.assertEqual(self.said(text)[0], 0)
        self.assertEqual(self.said(text + "    $ dd if=/tmp/y status=none\n    a\n")[0], 0)

    def test_a_difference(self):
        status, said = self.said("x\n\n    $ provision a\n    b\n")
        self.assertEqual((status, said.splitlines()[0]), (1, "README.md:3: provision a"))
        self.assertEqual(self.said("    $ provision a\n    a\n    b\n")[0], 1)

    def test_a_mark(self):
        text = "    $ provision a\n    a\n\n<!-- not run: it takes long -->\n\n    $ provision a\n    b\n"
        self.assertEqual(self.said(text), (0, "README.md:6: not run: it takes long\n"
                                              "examples: 1 commands and 0 images, 0 differ, 1 blocks not run\n"))

    def test_a_manual_page(self):
        text = ".Bd -literal\n    $ provision \\-\\-x\n    \\-\\-x\n.Ed\n"
        self.assertEqual(self.said(text, "man/a.1")[0], 0)
        self.assertEqual(self.said(text.replace("    \\-", "    \\-\\-"), "man/a.1")[0], 1)

    def test_nothing_to_run_is_a_fault(self):
        self.assertEqual(self.said("text\n")[0], 1)

    def test_an_image(self):
        text = "    $ provision a\n    a\n\n\n\n    tree-image 2\n    d / 0755 0 0 0,0,0,0 - - - -\n    end\n"
        self.assertEqual(self.said(text)[0], 0)
        self.assertEqual(self.said(text.replace("0755", "755"))[0], 1)


if __name__ == "__main__":
    unittest.main()
