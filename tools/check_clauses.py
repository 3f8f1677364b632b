#!/usr/bin/env python3
"""Checks that each clause that a document names stands on the call that it names.

Read are README.md, docs/PROMISES.md and crates/*/README.md: theorems, tables
with a column `call` and one of `clause`, `clauses` or `what .. say`, and items
of lists that begin with calls. In a column of clauses each name must be a
clause (`ensures NAME {`) of one of the row's calls, and each call must have one
of them; a name after a record (`IsStopped`: `again`) must be a part of it; a
law is a function of its name. In a text, `NAME`: at the beginning of a part is
a clause. What is no such name is said by no one and is not checked.

A theorem is a heading `### Theorem N: ..` and a paragraph below it that begins
`*Call and clause:*`. Its parts stand between semicolons, each with calls
(`crate::call`), if it has others than the part before, and their clauses. A
call without a clause must be a law. Theorems are numbered from 1 on, and
`Theorem N` in any document must be one of docs/PROMISES.md. A link from a
document to a heading, of this or another document, must lead to one.

A call or a law that is named so must be public: a `pub fn` that its crate's
lib.rt reaches by `pub use` or `pub mod`, or one of a type or a trait that it
reaches. No one outside of the crate can cite another. A program has no such
file, and all its calls count.

    check_clauses.py [TOP]      status 1 where a name is missing or private
"""

import re
import sys
from dataclasses import dataclass, field
from pathlib import Path

FUNCTION = re.compile(r"^(\s*)(pub(?:\([a-z]+\))? )?(?:const )?(?:unsafe )?fn (\w+)(\(\)$)?")
OWNER = re.compile(r"^(?:pub(?:\([a-z]+\))? )?(impl|trait)\b(.*)")
USE = re.compile(r"^pub use ([\w:]+?)(?:::(\w+|\*)(?: as \w+)?|::\{([^}]*)\});", re.MULTILINE)
MODULE = re.compile(r"^pub mod (\w+);", re.MULTILINE)
ENSURES = re.compile(r"\bensures(?: (\w+))? \{")
RECORD = re.compile(r"^(?:abbrev |def )?(?:pub )?(?:record|data) (?:pub )?(\w+)")
DEFINITION = re.compile(r"^(?:\w+ )*([A-Za-z_]\w*) :")
FIELD = re.compile(r"^\s+(?:pub )?([a-z]\w*(?: [a-z]\w*)*) :")
TOKEN = re.compile(r"`([^`]+)`")
NAME = re.compile(r"[A-Za-z_]\w*\Z")
SAME = "the same"
ONE_CLAUSE = ("its one clause", "the one `ensures`")
LAWS = re.compile(r"\b(?:a law|laws)\b")
ALL_CALLS = re.compile(r"each call|every call|the readers")
HEADING = re.compile(r"^#{1,4} (.+)")
THEOREM = re.compile(r"^### Theorem (\d+)\b")
CALLS_OF_THEOREM = re.compile(r"^\*Calls? and clauses?:?\*:?\s*(.*)")
PROMISES = "docs/PROMISES.md"
LINK = re.compile(r"\]\(([\w./-]*)#([^)]*)\)")
NUMBERED = re.compile(r"\bTheorem (\d+)\b")


@dataclass
class Function:
    """A function of a crate, with the names of its clauses, None for one without a name; a law takes no arguments."""

    crate: str
    owners: frozenset[str]
    name: str
    public: bool
    is_law: bool = False
    homes: set[str] = field(default_factory=set)
    clauses: list[str | None] = field(default_factory=list)


class Surface:
    """What a crate lends to others: names that its lib.rt reaches, and its public modules."""

    def __init__(self, folder: Path, crates: set[str]) -> None:
        self.own: set[str] = set()
        self.lent: list[tuple[str, str]] = []
        self.files: set[Path] = set()
        self.program = not (folder / "src/lib.rt").exists()
        if not self.program:
            self._read(folder / "src/lib.rt", folder / "src", crates)

    def _read(self, path: Path, folder: Path, crates: set[str]) -> None:
        self.files.add(path)
        text = path.read_text()
        for found in USE.finditer(text):
            first, *_ = found[1].split("::")
            names = [name.split()[0] for name in (found[2] or found[3]).split(",") if name.strip()]
            if first in crates:
                self.lent += [(first, name) for name in names]
            elif "*" in names:
                self._read_module(folder, found[1].split("::")[-1], crates)
            else:
                self.own.update(names)
        for found in MODULE.finditer(text):
            self._read_module(folder, found[1], crates)

    def _read_module(self, folder: Path, name: str, crates: set[str]) -> None:
        for path in (folder / f"{name}.rt", folder / name / "mod.rt"):
            if path.exists() and path not in self.files:
                self._read(path, folder / name, crates)

    def reaches(self, path: Path, name: str) -> bool:
        """Whether the crate's root reaches a public name of a file."""
        return self.program or path in self.files or name in self.own


def type_of(header: str) -> str:
    """The type, or the trait, of which an impl or a trait is."""
    depth = 0
    text = ""
    for letter in header.replace("->", ""):
        depth += (letter == "<") - (letter == ">")
        text += letter if depth == 0 and letter != ">" else ""
    found = re.search(r"\w+", text.split(" for ")[-1])
    return found[0] if found else ""


class Code:
    """Functions, records and names of all crates."""

    def __init__(self, top: Path) -> None:
        self.functions: dict[str, list[Function]] = {}
        self.records: dict[str, set[str]] = {}
        self.words: set[str] = set()
        self.defined: set[str] = set()
        self.crates = {crate.name for crate in (top / "crates").iterdir()}
        surfaces = {}
        for crate in sorted((top / "crates").iterdir()):
            surface = surfaces[crate.name] = Surface(crate, self.crates)
            for path in sorted(crate.rglob("*.rt")):
                if "out" not in path.relative_to(crate).parts:
                    self._read_source(crate.name, path, surface)
            for path in sorted(crate.rglob("*.antt")):
                if "out" not in path.relative_to(crate).parts:
                    self._read_definitions(path.read_text())
        for crate, surface in surfaces.items():
            for home, name in surface.lent:
                for function in self.functions.get(name, ()):
                    if function.crate == home and function.public:
                        function.homes.add(crate)

    def _read_source(self, crate: str, path: Path, surface: Surface) -> None:
        text = path.read_text()
        self.words.update(re.findall(r"\w+", text))
        owners: frozenset[str] = frozenset()
        owner = ("", "")
        function = None
        for line in text.splitlines():
            if line.startswith("}"):
                owners, owner = frozenset(), ("", "")
            if found := OWNER.match(line):
                owners = frozenset(re.findall(r"\b[A-Z]\w+", found[2]))
                of_trait = found[1] == "trait" or " for " in found[2]
                owner = (type_of(found[2]), "pub " if of_trait else "")
            if found := FUNCTION.match(line):
                mark = found[2] or owner[1]
                public = surface.program or mark == "pub " and surface.reaches(path, owner[0] or found[3])
                function = Function(crate, owners, found[3], public, found[4] is not None, {crate})
                self.functions.setdefault(found[3], []).append(function)
            for found in ENSURES.finditer(line):
                if function is not None and not line.lstrip().startswith("//"):
                    function.clauses.append(found[1])

    def _read_definitions(self, text: str) -> None:
        self.words.update(re.findall(r"\w+", text))
        parts: set[str] | None = None
        for line in text.splitlines():
            if found := DEFINITION.match(line):
                self.defined.add(found[1])
            if found := RECORD.match(line):
                parts = self.records.setdefault(found[1], set())
            elif parts is not None and (found := FIELD.match(line)):
                parts.update(found[1].split())
            elif line and not line[0].isspace() and not line.startswith("--"):
                parts = None

    def calls(self, text: str, crate: str | None) -> list[Function]:
        """The functions that a document calls so; its own crate's where it has one."""
        if " for " in text:
            trait = text.split(" for ")[0]
            return [it for them in self.functions.values() for it in them if trait in it.owners]
        *before, name = text.split("::")
        found = self.functions.get(name, [])
        for word in before:
            found = [it for it in found if word in it.homes or word in it.owners]
        own = [it for it in found if it.crate == crate]
        return own or found

    def stands_anywhere(self, clause: str) -> bool:
        return any(clause in it.clauses for found in self.functions.values() for it in found)

    def means_more(self, name: str) -> bool:
        """Whether a name is also a clause, a part or a definition."""
        return (name in self.defined or self.stands_anywhere(name)
                or any(name in parts for parts in self.records.values()))


@dataclass(frozen=True)
class Missing:
    place: str
    text: str

    def __str__(self) -> str:
        return f"{self.place}: {self.text}"


class Document:
    """One document, row by row and item by item."""

    def __init__(self, code: Code, top: Path, path: Path) -> None:
        self.code = code
        self.name = str(path.relative_to(top))
        self.crate = path.parent.name if path.parent.parent.name == "crates" else None
        self.lines = path.read_text().splitlines()
        self.missing: list[Missing] = []
        self.checked = 0

    def miss(self, number: int, text: str) -> None:
        missing = Missing(f"{self.name}:{number}", text)
        if missing not in self.missing:
            self.missing.append(missing)

    def check(self) -> None:
        header: list[str] | None = None
        calls: list[str] = []
        theorems = Theorems(self)
        for number, line in enumerate(self.lines, 1):
            theorems.read(number, line)
            if not line.startswith("|"):
                header = None
                if line.startswith("- "):
                    self._check_item(number, line)
                if CALLS_OF_THEOREM.match(line):
                    self._check_theorem(number, calls_of_theorem(self.lines, number - 1))
                self._check_names(number, line)
                continue
            self._check_names(number, line)
            cells = [cell.strip() for cell in line.strip("|").split("|")]
            if header is None:
                header, calls = cells, []
            elif not set(line) <= set("|- :") and "call" in header:
                calls = self._check_row(number, header, cells, calls)
        theorems.end()

    def _check_names(self, number: int, line: str) -> None:
        """A name that means a private call alone is no promise."""
        for name in TOKEN.findall("" if line.startswith("    ") else line):
            functions = self.code.calls(name, self.crate) if re.fullmatch(r"[\w:]+", name) else []
            if functions and not self.code.means_more(name):
                self._public(number, name, functions)

    # Theorems

    def _check_theorem(self, number: int, text: str) -> None:
        """The parts of a theorem; one of any call needs no call that it names."""
        for calls, clauses in parts_of_theorem(text):
            anywhere = ALL_CALLS.search(clauses) is not None
            if not calls and not anywhere:
                self.miss(number, f"no call in `{clauses.strip()}`")
            if calls or TOKEN.search(clauses):
                self._check_clauses(number, calls, clauses, False, anywhere)
            if not TOKEN.search(without_records(clauses)) and clauses not in ONE_CLAUSE:
                self._check_laws(number, calls)

    def _check_laws(self, number: int, calls: list[str]) -> None:
        """Calls that are named without a clause are laws, whose whole contract is meant."""
        for call in calls:
            functions = self.code.calls(call, None)
            self.checked += len(functions)
            if functions and not any(it.is_law for it in functions):
                self.miss(number, f"no clause of `{call}`")

    # Rows

    def _check_row(self, number: int, header, cells, before: list[str]) -> list[str]:
        """Check a row; the calls that the next one may call the same."""
        cell = cells[header.index("call")]
        calls = call_names(cell)
        laws = not cell or LAWS.search(f"{cell} {cells[-1]}") is not None
        if cell == SAME or not calls and not laws and not ALL_CALLS.search(cell):
            calls = before
        for title, text in zip(header, cells):
            if title in ("clause", "clauses"):
                for names, part in pairs_of(cell, calls, text):
                    self._check_clauses(number, names, part, laws, ALL_CALLS.search(cell) is not None)
            elif title.startswith("what") and title != "what is proved":
                self._check_text(number, calls, text)
        return calls

    def _found(self, number: int, calls: list[str]) -> list[list[Function]]:
        found = []
        for call in calls:
            functions = self.code.calls(call, self.crate)
            if not functions and not call[0].isupper() and call not in self.code.crates:
                self.miss(number, f"no call `{call}`")
            if functions:
                found.append(self._public(number, call, functions))
        return found

    def _public(self, number: int, name: str, functions: list[Function]) -> list[Function]:
        """Those of some functions that others can cite; one at least must be such."""
        public = [it for it in functions if it.public]
        if not public:
            self.miss(number, f"`{name}` is private")
        return public or functions

    def _check_clauses(self, number: int, calls: list[str], text: str, laws: bool, anywhere: bool) -> None:
        found = self._found(number, calls)
        if text.strip() in ONE_CLAUSE:
            for functions in found:
                self.checked += 1
                if not any(len(it.clauses) == 1 for it in functions):
                    self.miss(number, f"`{functions[0].name}` has not one clause")
            return
        named: set[str] = set()
        for part in text.split(";"):
            laws |= self._check_part(number, found, part, laws, anywhere, named)
        for functions in found:
            standing = {it for function in functions for it in function.clauses}
            if named and not laws and not standing & (named | {None}):
                self.miss(number, f"`{functions[0].name}` has none of the clauses "
                          + ", ".join(f"`{it}`" for it in sorted(named)))

    def _check_part(self, number, found, part: str, laws: bool, anywhere: bool, named: set[str]) -> bool:
        """Clauses, each with the record that it says and parts of that; whether there is a law."""
        record: str | None = None
        inside = False
        tokens = tokens_of(part)
        for (token, before), (crate, between) in zip(tokens, [*tokens[1:], ("", "")]):
            if ")" in before and ":" not in before:
                record, inside = None, False
            inside = inside or before.strip() in (":", "):") or "(" in before
            first = token.split()[0]
            if not NAME.match(first) or first == "ensures" or first in self.code.crates:
                continue
            if between == " of " and (called := self.code.calls(f"{crate}::{first}", None)):
                found.append(self._public(number, first, called))
                inside = False
                continue
            self.checked += 1
            if first[0].isupper():
                record = first
                if first not in self.code.words:
                    self.miss(number, f"no definition `{first}`")
            elif inside:
                self._check_field(number, record, first)
            elif not self._is_clause(found, first, named):
                if law := self._laws(found, first, laws):
                    self._public(number, first, law)
                    laws = True
                elif not (anywhere and self.code.stands_anywhere(first)):
                    calls = ", ".join(f"`{it[0].name}`" for it in found) or "any call"
                    self.miss(number, f"no clause `{first}` on {calls}")
        return laws

    def _check_field(self, number: int, record: str | None, name: str) -> None:
        records = self.code.records
        if record is None:
            fine = any(name in parts for parts in records.values())
        else:
            fine = name in records.get(record, ())
        if not fine:
            self.miss(number, f"no part `{name}` of " + (f"`{record}`" if record else "any record"))

    @staticmethod
    def _is_clause(found, name: str, named: set[str]) -> bool:
        fine = any(name in function.clauses for functions in found for function in functions)
        if fine:
            named.add(name)
        return fine

    def _laws(self, found, name: str, laws: bool) -> list[Function]:
        """The laws of a name, where laws are spoken of or they are of the crate of a call."""
        crates = {crate for functions in found for function in functions for crate in function.homes}
        return [it for it in self.code.functions.get(name, ()) if laws or it.homes & crates]

    # Texts

    def _check_text(self, number: int, calls: list[str], text: str) -> None:
        """Names at the beginning of a part of a text, with a colon behind them, are clauses."""
        found = self._found(number, calls)
        for part in re.split(r"[;.] ", text):
            head = re.match(r"\s*((?:`\w+`(?:, | and )?)+):", part)
            for name in TOKEN.findall(head[1]) if head and found else ():
                self.checked += 1
                if name[0].isupper():
                    fine = name in self.code.words
                else:
                    fine = self._is_clause(found, name, set()) or any(
                        name == it.name for functions in found for it in functions)
                if not fine:
                    self.miss(number, f"no clause `{name}` on "
                              + ", ".join(f"`{it[0].name}`" for it in found))

    def _check_item(self, number: int, line: str) -> None:
        """An item that begins with calls: names in parentheses are clauses or other names."""
        text = " ".join([line, *self._rest_of_item(number)])
        head = re.match(r"- (?:\*\*[^*]*\*\* \()?((?:`[\w:]+`(?:, | and )?)+)", text)
        if head is None:
            return
        calls = [call for call in TOKEN.findall(head[1]) if self.code.calls(call, self.crate)]
        found = [self._public(number, call, self.code.calls(call, self.crate)) for call in calls]
        for name in re.findall(r"[(;,] ?`(\w+)`(?=[:;,)])", text) if found else ():
            self.checked += 1
            if not self._is_clause(found, name, set()) and name not in self.code.words:
                self.miss(number, f"no clause `{name}` on " + ", ".join(f"`{it}`" for it in calls))
            elif not self._is_clause(found, name, set()) and re.search(rf"\(`{name}`: ", text):
                if name not in self.code.functions and not self.code.stands_anywhere(name):
                    self.miss(number, f"no clause `{name}`")

    def _rest_of_item(self, number: int) -> list[str]:
        rest = []
        for line in self.lines[number:]:
            if not line.startswith("  "):
                break
            rest.append(line.strip())
        return rest


class Theorems:
    """The theorems of a document as it is read: their numbers, and that each names its calls and clauses."""

    def __init__(self, document: Document) -> None:
        self.document = document
        self.number = 0
        self.open: int | None = None

    def read(self, at: int, line: str) -> None:
        if HEADING.match(line):
            self.end()
        if found := THEOREM.match(line):
            self.number += 1
            if int(found[1]) != self.number:
                self.document.miss(at, f"theorem {found[1]} is the one of number {self.number}")
            self.open = at
        elif CALLS_OF_THEOREM.match(line):
            self.open = None

    def end(self) -> None:
        """A theorem ends, which must have named its calls and clauses."""
        if self.open is not None:
            self.document.miss(self.open, "a theorem without a call and a clause")
        self.open = None


def calls_of_theorem(lines: list[str], at: int) -> str:
    """The text of the paragraph that begins at a line, which names calls and clauses of a theorem."""
    found = CALLS_OF_THEOREM.match(lines[at])
    text = [found[1]]
    for line in lines[at + 1:]:
        if not line.strip() or line.startswith(("*", "#", "|")):
            break
        text.append(line.strip())
    return " ".join(text).rstrip(".")


def parts_of_theorem(text: str) -> list[tuple[list[str], str]]:
    """The parts between semicolons outside of parentheses: the calls, or those of the part before, and the clauses."""
    parts = []
    calls: list[str] = []
    for part in re.split(r";(?![^(]*\))", text):
        named = [it for it in call_names(part) if "::" in it]
        calls = named or ([] if ALL_CALLS.search(part) else calls)
        clauses = re.sub(r"`\w+(?:::\w+)+`(?:,| and)?", "", part)
        parts.append((calls, clauses.strip(" ,")))
    return parts


def without_records(text: str) -> str:
    """A text without what stands in parentheses: the parts of a record, which say what to look at in a clause."""
    return re.sub(r"\([^()]*\)", "", text)


def anchors_of(text: str) -> set[str]:
    """The names by which pages link to the headings of a document: words in small letters with hyphens between."""
    headings = [found[1] for found in map(HEADING.match, text.splitlines()) if found]
    return {re.sub(r"[^\w\- ]", "", it.lower()).strip().replace(" ", "-") for it in headings}


def lost_links(top: Path) -> list[Missing]:
    """Links of all documents to a heading, and numbers of theorems, that are not there."""
    found = []
    promises = (top / PROMISES).read_text() if (top / PROMISES).exists() else ""
    theorems = {it[1] for it in map(THEOREM.match, promises.splitlines()) if it}
    for path in [*sorted(top.glob("*.md")), *sorted(top.glob("docs/*.md")), *sorted(top.glob("crates/*/README.md"))]:
        for number, line in enumerate(path.read_text().splitlines(), 1):
            for page, anchor in LINK.findall(line):
                target = (path.parent / page).resolve() if page else path
                if not target.exists() or anchor not in anchors_of(target.read_text()):
                    found.append(Missing(f"{path.relative_to(top)}:{number}", f"no heading `{page}#{anchor}`"))
            if theorems:
                found += [Missing(f"{path.relative_to(top)}:{number}", f"no theorem {it}")
                          for it in NUMBERED.findall(line) if it not in theorems]
    return found


def call_names(cell: str) -> list[str]:
    """The calls of a cell; a method that follows another is of the same type."""
    names = []
    owner = ""
    for token in TOKEN.findall(cell):
        if not re.fullmatch(r"[\w:]+|\w+ for \w+", token):
            continue
        *before, name = token.split("::")
        if before and before[-1][:1].isupper():
            owner = "::".join(before) + "::"
        elif before:
            owner = ""
        elif owner and name[:1].islower():
            token = owner + name
        names.append(token)
    return names


def pairs_of(cell: str, calls: list[str], text: str) -> list[tuple[list[str], str]]:
    """Calls with their clauses: part by part where both cells have as many, else all with all."""
    left, right = cell.split(";"), text.split(";")
    if len(left) == len(right) > 1:
        return [(call_names(names), part) for names, part in zip(left, right)]
    return [(calls, text)]


def tokens_of(text: str) -> list[tuple[str, str]]:
    """Each token with the text between it and the one before."""
    tokens = []
    end = 0
    for found in TOKEN.finditer(text):
        tokens.append((found[1], text[end:found.start()]))
        end = found.end()
    return tokens


def main(words: list[str]) -> int:
    top = Path(words[0] if words else Path(__file__).resolve().parent.parent).resolve()
    code = Code(top)
    paths = [top / "README.md", top / PROMISES, *sorted(top.glob("crates/*/README.md"))]
    checked = 0
    missing: list[Missing] = lost_links(top)
    for path in paths:
        if path.exists():
            document = Document(code, top, path)
            document.check()
            checked += document.checked
            missing += document.missing
    for it in missing:
        print(it)
    print(f"clauses: {checked} names checked, {len(missing)} missing")
    return 1 if missing or not checked else 0


if __name__ == "__main__":
    sys.exit(main(sys.argv[1:]))
