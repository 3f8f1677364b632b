"""How a path differs between two trees, as text and as an object of --json."""

import difflib
from collections.abc import Iterator
from dataclasses import dataclass

from .messages import counted, shown_text
from .roots import Root
from .tree import Change
from tree_image import KIND_NAMES, Node, printed_path, read_marker

MOST_BYTES = 1 << 20  # longer contents are not compared line by line
FIELDS = ("kind", "mode", "owner", "group", "ACL", "attributes", "flags", "target", "device", "content")


class Names:
    """The names of users and groups of a tree, and the contents of its files."""

    def __init__(self, root: Root, tree: dict[bytes, Node]) -> None:
        self._root = root
        self._users = _names_in(tree.get(b"/etc/passwd"))
        self._groups = _names_in(tree.get(b"/etc/group"))

    def user(self, number: int) -> str:
        """A user by its name, and by its number if that has none."""
        return _named(self._users, number)

    def group(self, number: int) -> str:
        """A group by its name, and by its number if that has none."""
        return _named(self._groups, number)

    def size(self, content: bytes) -> int:
        """How many bytes a file has."""
        return self._root.size(content)

    def text(self, content: bytes) -> str | None:
        """The text of a file; nothing if it is long or is not text."""
        if self.size(content) > MOST_BYTES:
            return None
        data = b"".join(self._root.pieces(content))
        try:
            return None if b"\0" in data else data.decode()
        except UnicodeDecodeError:
            return None


def _names_in(node: Node | None) -> dict[int, str]:
    """The names of an account file by their numbers; of several the first."""
    names: dict[int, str] = {}
    content = node.content if node is not None and isinstance(node.content, bytes) else b""
    for line in content.split(b"\n"):
        fields = line.split(b":")
        if len(fields) > 2 and fields[2].isdigit():
            names.setdefault(int(fields[2]), shown_text(fields[0]))
    return names


def _named(names: dict[int, str], number: int) -> str:
    return f"{names[number]} ({number})" if number in names else str(number)


def _content(node: Node) -> bytes:
    return node.content if isinstance(node.content, bytes) else b""


@dataclass(frozen=True, slots=True)
class Field:
    """One thing in which an object differs: its name, and what it was and is."""

    name: str
    before: str
    after: str


def _values(node: Node, names: Names) -> dict[str, str]:
    """All of an object but its timestamps and its contents."""
    attrs = ", ".join(f"{shown_text(key)}={shown_text(node.attrs[key])}" for key in sorted(node.attrs))
    values = {"kind": KIND_NAMES[node.kind], "owner": names.user(node.uid), "group": names.group(node.gid),
              "mode": f"{node.mode:04o}", "ACL": node.acl, "attributes": attrs or "-", "flags": node.letters or "-"}
    if node.kind == "l":
        values["target"] = shown_text(node.target)
    elif node.kind in "cb":
        values["device"] = f"{node.major}:{node.minor}"
    elif node.kind == "f":
        values["content"] = counted(names.size(_content(node)), "byte")
    return values


def fields_of(change: Change, names: Names) -> list[Field]:
    """In what an object differs that both trees have."""
    if change.before is None or change.after is None:
        return []
    before, after = _values(change.before, names), _values(change.after, names)
    fields = [Field(name, before.get(name, "-"), after.get(name, "-")) for name in FIELDS
              if before.get(name) != after.get(name)]
    if all(it.name != "content" for it in fields) and _content(change.before) != _content(change.after):
        fields.append(Field("content", before["content"], after["content"]))
    return fields


def describe(change: Change, names: Names) -> str:
    """A difference as text, of one or more lines."""
    path = printed_path(change.path)
    if change.after is None:
        assert change.before is not None
        return f"- {path}  {KIND_NAMES[change.before.kind]}\n"
    if change.before is None:
        rows = [f"+ {path}  {_summary(change.after, names)}"]
    else:
        rows = [f"~ {path}  {KIND_NAMES[change.after.kind]}"]
        rows += [f"    {it.name} {it.before} -> {it.after}" for it in fields_of(change, names) if it.name != "content"]
    rows += [f"    {row}" for row in _content_rows(change, names)]
    return "\n".join(rows) + "\n"


def _summary(node: Node, names: Names) -> str:
    """A new object in one line."""
    if node.kind == "l":
        return f"link to {shown_text(node.target)}"
    values = _values(node, names)
    parts = [KIND_NAMES[node.kind], values["mode"], f"{values['owner']} : {values['group']}"]
    parts += [f"{name} {values[name]}" for name in ("device", "ACL", "attributes", "flags")
              if values.get(name, "-") != "-"]
    return ", ".join(parts)


def _content_rows(change: Change, names: Names) -> Iterator[str]:
    """What differs in the contents of a file: a unified diff for text, otherwise the lengths."""
    old = _content(change.before) if change.before is not None and change.before.kind == "f" else b""
    new = _content(change.after) if change.after is not None and change.after.kind == "f" else b""
    if old == new or not new and not old:
        return
    texts = names.text(old), names.text(new)
    if texts[0] is not None and texts[1] is not None:
        yield from _unified(texts[0], texts[1])
    elif (added := _appended(old, new)) is not None:
        yield f"content: {counted(len(added), 'byte')} appended"
    else:
        yield f"content {counted(names.size(old), 'byte')} -> {counted(names.size(new), 'byte')}"


def _appended(old: bytes, new: bytes) -> bytes | None:
    """What a run appended to contents that stand aside; nothing if it did something else."""
    before, after = read_marker(old), read_marker(new)
    if before is None or after is None or before[0] != after[0] or not after[1].startswith(before[1]):
        return None
    return after[1][len(before[1]):]


def _unified(old: str, new: str) -> Iterator[str]:
    """The rows of a unified diff from its first hunk on."""
    for row in list(difflib.unified_diff(old.splitlines(True), new.splitlines(True)))[2:]:
        yield shown_text(row.rstrip("\n").encode())
        if not row.endswith("\n"):
            yield "\\ No newline at end of file"


def json_of(change: Change, names: Names) -> dict[str, object]:
    """A difference as an object of --json."""
    what = "made" if change.before is None else "removed" if change.after is None else "changed"
    shown: dict[str, object] = {"kind": "difference", "change": what, "path": printed_path(change.path)}
    if change.before is not None:
        shown["before"] = _values(change.before, names)
    if change.after is not None:
        shown["after"] = _values(change.after, names)
    if what == "changed":
        shown["fields"] = [it.name for it in fields_of(change, names)]
    rows = list(_content_rows(change, names))
    if rows and change.after is not None:
        shown["diff"] = rows
    return shown
