#!/usr/bin/env python3
"""Checks that docs/BELIEVE.md names the definitions that the promises rest on.

A promise is a row of a table of docs/PROMISES.md with the columns `call` and
`clause`, or a theorem: a heading with a paragraph below it that begins
`*Call and clause:*`. The clauses of its calls name definitions, which the
source file imports (`ghost use`). Those definitions name others, which their
own files import (`use`), and so on. The page lists the files of definitions
(`crates/NAME/specs/FILE.antt`) that are reached in this way, each behind those
that it uses, with the number of lines of the definitions that are reached.

    check_beliefs.py [TOP]              status 1 where the page and the code differ
    check_beliefs.py --write [TOP]      writes the page; the text above its first promise stays
"""

import re
import sys
from collections import defaultdict
from dataclasses import dataclass, field
from pathlib import Path

from check_clauses import (ALL_CALLS, CALLS_OF_THEOREM, HEADING, ONE_CLAUSE, PROMISES, call_names, calls_of_theorem,
                           pairs_of, parts_of_theorem, without_records)

PAGE = "docs/BELIEVE.md"
BEGINNING = "<!-- What follows is written by tools/check_beliefs.py --write. -->"

FUNCTION = re.compile(r"^\s*(?:pub(?:\([a-z]+\))? )?(?:const )?(?:unsafe )?fn (\w+)(\(\)$)?")
OWNER = re.compile(r"^(?:pub(?:\([a-z]+\))? )?(?:impl|trait)\b(.*)")
CLAUSE = re.compile(r"^\s*(?:ensures|requires)(?: (\w+))? \{")
IMPORT = re.compile(r"^\s*(?:ghost )?use Rattle\.([\w.]+)\.\{([^}]*)\};?$")
ALIAS = re.compile(r"^\s*(?:ghost )?use Rattle\.([\w.]+) as ([\w'-]+);?$")
IMPORT_LINES = re.compile(r"(use Rattle[\w.]+\.\{)([^}]*\n[^}]*)\}")
DEFINITION = re.compile(r"^(?:(?:abbrev|unfoldable|pub|record|data) )*([^\W\d][\w'-]*)")
WORD = re.compile(r"(?<![\w'.-])([^\W\d][\w'-]*)(?:\.([^\W\d][\w'-]*))?")
TOKEN = re.compile(r"`([^`]+)`")

HEAD = """\
# What to believe

The prover checks that the code meets its contracts. It cannot check that the contracts say what you want. The contracts are written with definitions, and these you have to read and believe. This page says for each theorem which definitions they are.

Each theorem of [PROMISES.md](PROMISES.md) has a section below, with its calls and clauses. The theorem that every call ends has none, since it needs no definition. For one of the five promises for users, look up the theorems that it names. A section lists the definitions that are named by a clause of the theorem or by the `requires` of its call, and all definitions on which these depend. `pv_path: Names 12` means 12 lines of `crates/pv_path/specs/Names.antt`. Only the definitions that are reached are counted, without comments and blank lines.

How to read the definitions behind one theorem:

1. Read the clauses first. They stand in the source of the call, below the line with `fn`.
2. Read the files in the order of the list. No file uses a definition of a file that comes later.
3. Skip what you have read for another theorem. The table below shows how many lines all clauses of one theorem need together, and how many all theorems need.
4. You may read one clause alone: that of the call that you use. In a section each clause has its own number of lines. A clause of `run_on_tree` or `provision` speaks of all commands. So it also reaches the definitions of accounts where the theorem is about creating. The clause of a single call, or a law, needs much less.
5. Look up a Rust type under "Types" if a definition names it. Its declaration in `crates/NAME/src` is ordinary Rust, and `impl Model` beside it says which of its fields the clauses see.

The kit explains the language of clauses and definitions in `rattle/CONTRACTS.md` and `rattle/ANTT.md`. Without the kit you can read only the comments above the definitions, and no prover checks comments. Definitions of the standard library are not listed. They come with the kit that README names, and so does the prover. Nothing in `crates/*/proofs` has to be read or believed, because the prover checks it.

The lists are computed from the imports, and the gate fails where this page differs from the code (`python3 tools/check_beliefs.py`). After a change of clauses or definitions run `python3 tools/check_beliefs.py --write`.
"""


@dataclass
class Source:
    """The names that a file imports, and its aliases of whole files."""

    names: dict[str, tuple[str, str]] = field(default_factory=dict)
    aliases: dict[str, str] = field(default_factory=dict)

    def read_import(self, line: str) -> bool:
        if found := IMPORT.match(line):
            for item in found[2].split(","):
                name, _, own = item.strip().partition(" as ")
                self.names[own.strip() or name] = (found[1], name)
            return True
        if found := ALIAS.match(line):
            self.aliases[found[2]] = found[1]
            return True
        return line.lstrip().startswith(("use Rattle.", "ghost use Rattle.", "use Prim."))

    def meant(self, text: str) -> set[tuple[str, str]]:
        """The names of other files that a text uses, each with its file."""
        found = set()
        for word, part in WORD.findall(text):
            if word in self.names:
                found.add(self.names[word])
            elif word in self.aliases:
                found.add((self.aliases[word], part))
        return found


class Definitions(Source):
    """A file of definitions: for each name the lines that define it."""

    def __init__(self, text: str) -> None:
        super().__init__()
        self.block_of: dict[str, int] = {}
        self.blocks: list[list[str]] = []
        self.uses: dict[int, tuple[list[tuple[str, str]], list[str]]] = {}
        block = -1
        for line in with_whole_imports(text).splitlines():
            if not line.strip() or line.lstrip().startswith("--") or self.read_import(line):
                continue
            if not line[0].isspace() and line[0] not in ")]}":
                block = self._block_at(line)
            elif line.startswith("  ") and not line[2].isspace() and self.blocks[block][0].startswith("module "):
                if found := DEFINITION.match(line[2:]):
                    self.block_of.setdefault(found[1], block)
            self.blocks[block].append(line)

    def _block_at(self, line: str) -> int:
        """The block of a line without an indent: that of the name whose equation it is, or a new one."""
        found = DEFINITION.match(line)
        name = found[1] if found else line.split()[0]
        if name == "module" or name not in self.block_of:
            self.blocks.append([])
        return self.block_of.setdefault(name, len(self.blocks) - 1) if name != "module" else len(self.blocks) - 1

    def used_by(self, block: int) -> tuple[list[tuple[str, str]], list[str]]:
        """What a block uses of other files, and of its own."""
        if block not in self.uses:
            text = "\n".join(self.blocks[block])
            own = {word for word, _ in WORD.findall(text) if word in self.block_of}
            self.uses[block] = sorted(self.meant(text)), sorted(own)
        return self.uses[block]


@dataclass
class Function:
    """A function of a crate, with the texts of its clauses and of its premises; a law takes no arguments."""

    crate: str
    source: Source
    owners: frozenset[str]
    name: str
    is_law: bool = False
    clauses: list[tuple[str | None, str]] = field(default_factory=list)
    premises: list[str] = field(default_factory=list)


@dataclass
class Promise:
    """A promise, with the clauses that say it; None for all clauses of a function."""

    title: str
    functions: list[tuple[Function, str | None]] = field(default_factory=list)

    def add(self, more: list[tuple[Function, str | None]]) -> None:
        self.functions += [it for it in more if it not in self.functions]


@dataclass
class Reach:
    """What some clauses reach: lines by file, which file uses which, and types with their crates."""

    lines: dict[str, int] = field(default_factory=dict)
    uses: dict[str, set[str]] = field(default_factory=lambda: defaultdict(set))
    types: set[tuple[str, str]] = field(default_factory=set)


class Code:
    """Clauses and definitions of all crates."""

    def __init__(self, top: Path) -> None:
        self.functions: dict[str, list[Function]] = defaultdict(list)
        self.files: dict[str, Definitions] = {}
        stands_on = crates_of((top / "crates.txt").read_text())
        self.crates = after_what_they_use(list(stands_on), stands_on)
        for crate in self.crates:
            for path in sorted((top / "crates" / crate / "src").rglob("*.rt")):
                self._read_source(crate, path.read_text())
            for path in sorted((top / "crates" / crate / "specs").glob("*.antt")):
                if path.stem != "Lib":
                    self.files[f"{crate}.specs.{path.stem}"] = Definitions(path.read_text())

    def _read_source(self, crate: str, text: str) -> None:
        source = Source()
        owners: frozenset[str] = frozenset()
        function = None
        lines = iter(with_whole_imports(text).splitlines())
        for line in lines:
            if source.read_import(line):
                continue
            if line.startswith("}"):
                owners = frozenset()
            if found := OWNER.match(line):
                owners = frozenset(re.findall(r"\b[A-Z]\w+", found[1]))
            if found := FUNCTION.match(line):
                function = Function(crate, source, owners, found[1], found[2] is not None)
                self.functions[found[1]].append(function)
            elif function is not None and (found := CLAUSE.match(line)):
                body = clause_text(line[found.end():], lines)
                if line.lstrip().startswith("ensures"):
                    function.clauses.append((found[1], body))
                else:
                    function.premises.append(body)

    def calls(self, call: str) -> list[Function]:
        """The functions that a document calls so; a crate may lend one of another, if there is one of the name."""
        *before, name = call.split("::")
        named = self.functions.get(name, [])
        found = [it for it in named if all(word in (it.crate, *it.owners) for word in before)]
        return found or (named if len(named) == 1 and before and before[0] in self.crates else [])

    # What is reached

    def reach(self, functions: list[tuple[Function, str | None]]) -> Reach:
        """What clauses reach, and the premises of their functions."""
        found = Reach()
        blocks: set[tuple[str, int]] = set()
        for function, clause in functions:
            texts = [text for name, text in function.clauses if clause in (None, name)]
            for file, name in function.source.meant("\n".join(texts + function.premises)):
                self._reach_name(found, blocks, file, name, "")
        return found

    def _reach_name(self, found: Reach, blocks: set[tuple[str, int]], file: str, name: str, user: str) -> None:
        """A name, and all that its definition uses; `user` is the file that names it."""
        todo = [(file, name, user)]
        while todo:
            file, name, user = todo.pop()
            if typed := re.match(r"(\w+)\.specs\.(?:declared|contracts)\.(\w+)\.(\w+)", file):
                if typed[1] in self.crates:
                    found.types.add((typed[1], typed[3]))
                continue
            definitions = self.files.get(file)
            if definitions is None:
                continue
            if user and user != file:
                found.uses[user].add(file)
            block = definitions.block_of.get(name)
            if block is None or (file, block) in blocks:
                continue
            blocks.add((file, block))
            found.lines[file] = found.lines.get(file, 0) + len(definitions.blocks[block])
            others, own = definitions.used_by(block)
            todo += [(other, it, file) for other, it in others]
            todo += [(file, it, file) for it in own]

    def order(self, reach: Reach) -> list[tuple[str, list[str]]]:
        """The files crate by crate, the lowest crate first, each file behind those that it uses."""
        inside: dict[str, list[str]] = defaultdict(list)
        for file in sorted(reach.lines):
            inside[file.split(".")[0]].append(file)
        return [(crate, after_what_they_use(inside[crate], reach.uses)) for crate in self.crates if crate in inside]


def crates_of(text: str) -> dict[str, set[str]]:
    """The crates of crates.txt in its order, each with those that it stands on."""
    lines = [line.partition(":") for line in text.splitlines() if ":" in line and not line.startswith("#")]
    names = [name.split()[0] for name, _, _ in lines]
    return {name: set(rest.split()) & set(names) for name, (_, _, rest) in zip(names, lines)}


def with_whole_imports(text: str) -> str:
    """A text in which each import stands in one line."""
    return IMPORT_LINES.sub(lambda found: found[1] + " ".join(found[2].split()) + "}", text)


def clause_text(first: str, lines) -> str:
    """The text of a clause up to the brace that closes it."""
    text, depth = [], 1
    line = first
    while True:
        for place, sign in enumerate(line):
            depth += (sign == "{") - (sign == "}")
            if depth == 0:
                return "\n".join([*text, line[:place]])
        text.append(line)
        line = next(lines, None)
        if line is None:
            return "\n".join(text)


def after_what_they_use(things: list[str], uses: dict[str, set[str]]) -> list[str]:
    """Things in an order in which each comes behind those that it uses; otherwise in their order."""
    done: list[str] = []
    seen: set[str] = set()

    def add(thing: str) -> None:
        if thing in seen:
            return
        seen.add(thing)
        for other in sorted(uses.get(thing, ())):
            add(other)
        if thing in things:
            done.append(thing)

    for thing in things:
        add(thing)
    return done


# The promises


def promises_of(code: Code, text: str) -> list[Promise]:
    """Rows and theorems that name a call and a clause of it, in the order of the document."""
    found: list[Promise] = []
    header: list[str] | None = None
    heading = ""
    lines = text.splitlines()
    for number, line in enumerate(lines):
        if line.startswith("|"):
            cells = [cell.strip() for cell in line.strip("|").split("|")]
            if header is None:
                header = cells
            elif not set(line) <= set("|- :") and "call" in header:
                found.append(row(code, header, cells))
            continue
        header = None
        if it := HEADING.match(line):
            heading = it[1]
        elif CALLS_OF_THEOREM.match(line):
            found.append(theorem(code, heading, calls_of_theorem(lines, number)))
    return found


def row(code: Code, header: list[str], cells: list[str]) -> Promise:
    call = cells[header.index("call")]
    clauses = [text for title, text in zip(header, cells) if title in ("clause", "clauses")]
    titles = re.findall(r"\*\*([^*]+)\*\*", cells[0])
    promise = Promise(", ".join(titles) or cells[0])
    for text in clauses:
        for names, part in pairs_of(call, call_names(call), without_records(text)):
            promise.add(clauses_of(code, names, part, ALL_CALLS.search(call) is not None))
    return promise


def theorem(code: Code, heading: str, text: str) -> Promise:
    """A theorem, part by part: the clauses of calls, or all those of laws that are named without one."""
    promise = Promise(heading)
    for calls, text_of_clauses in parts_of_theorem(text):
        clauses = without_records(text_of_clauses)
        if TOKEN.search(clauses) or clauses in ONE_CLAUSE:
            promise.add(clauses_of(code, calls, clauses, ALL_CALLS.search(clauses) is not None))
        else:
            promise.add([(it, None) for call in calls for it in code.calls(call) if it.is_law])
    return promise


def clauses_of(code: Code, calls: list[str], text: str, anywhere: bool) -> list[tuple[Function, str | None]]:
    """The clauses of calls that a text names, or of any call; all clauses of each law that it names."""
    functions = [it for call in calls for it in code.calls(call)]
    if anywhere:
        functions += [it for them in code.functions.values() for it in them]
    if text.strip() in ONE_CLAUSE:
        return [(it, None) for it in functions]
    found: list[tuple[Function, str | None]] = []
    for token in TOKEN.findall(text):
        mine = [(it, token) for it in functions if token in (name for name, _ in it.clauses)]
        found += mine or [(it, None) for it in code.calls(token) if it.is_law]
    return found


# The page


def sections(code: Code, promises: list[Promise]) -> str:
    """The table of all promises, and a section for each that reaches a definition."""
    rows = ["| theorem | lines | files | crates |", "|---|---|---|---|"]
    parts: list[str] = []
    for promise in promises:
        reach = code.reach(promise.functions)
        order = code.order(reach)
        if not order:
            continue
        rows.append(f"| {promise.title} | {sum(reach.lines.values()):,} | {len(reach.lines)} | {len(order)} |")
        parts.append(section(code, promise, reach, order))
    everything = code.reach([function for promise in promises for function in promise.functions])
    rows.append(f"| all together | {sum(everything.lines.values()):,} | {len(everything.lines)} | {len(code.order(everything))} |")
    return "\n".join([*rows, "", *parts])


def section(code: Code, promise: Promise, reach: Reach, order: list[tuple[str, list[str]]]) -> str:
    named = {}
    for function, clause in promise.functions:
        name = f"`{function.crate}::{function.name}`" + (f" (`{clause}`)" if clause else "")
        named[name] = sum(code.reach([(function, clause)]).lines.values())
    clauses = ", ".join(f"{name} {count:,}" for name, count in sorted(named.items()))
    lines = [f"## {promise.title}", "", f"Clauses, with the lines that each reaches by itself: {clauses}.", ""]
    for crate, files in order:
        lines.append(f"- {crate}: " + ", ".join(f"`{file.split('.')[-1]}` {reach.lines[file]}" for file in files))
    by_crate: dict[str, list[str]] = defaultdict(list)
    for crate, name in sorted(reach.types):
        by_crate[crate].append(name)
    if by_crate:
        types = "; ".join(f"{crate}: {', '.join(f'`{name}`' for name in names)}" for crate, names in by_crate.items())
        lines += ["", f"Types: {types}."]
    return "\n".join([*lines, ""])


def differences(page: str, wanted: str) -> list[str]:
    """The promises whose sections differ, each with the first line that does."""
    old, new = by_promise(page), by_promise(wanted)
    found = [f"no promise of {PROMISES}: {title}" for title in old if title not in new]
    for title, lines in new.items():
        if title not in old:
            found.append(f"not on the page: {title}")
        elif lines != old[title]:
            here = next((it for it in lines if it not in old[title]), None)
            there = next((it for it in old[title] if it not in lines), None)
            parts = [f"the page has {there!r}"] if there else []
            parts += [f"the code gives {here!r}"] if here else []
            found.append(f"{title or 'the table'}: " + "; ".join(parts))
    return found


def by_promise(text: str) -> dict[str, list[str]]:
    found: dict[str, list[str]] = {"": []}
    title = ""
    for line in text.splitlines():
        if line.startswith("## "):
            title = line[3:]
            found[title] = []
        elif line.strip():
            found[title].append(line)
    return found


def main(words: list[str]) -> int:
    write = words[:1] == ["--write"]
    words = words[1:] if write else words
    top = Path(words[0] if words else Path(__file__).resolve().parent.parent).resolve()
    code = Code(top)
    promises = promises_of(code, (top / PROMISES).read_text())
    wanted = sections(code, promises)
    page = top / PAGE
    old = page.read_text() if page.exists() else ""
    head, mark, listed = old.partition(BEGINNING)
    if write:
        page.write_text(f"{head if mark else HEAD + chr(10)}{BEGINNING}\n\n{wanted}")
        return 0
    found = differences(listed, wanted) if mark else [f"no page {PAGE}; write it by --write"]
    if mark and not found and listed.strip() != wanted.strip():
        found = ["the promises stand in another order"]
    for it in found:
        print(f"{PAGE}: {it}")
    count = sum(1 for it in promises if it.functions)
    print(f"beliefs: {count} promises checked, {len(found)} differ")
    return 1 if found or not count else 0


if __name__ == "__main__":
    sys.exit(main(sys.argv[1:]))
