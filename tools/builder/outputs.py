"""Writes what a command gives: an archive or a folder, beside its place, renamed when it is whole."""

import os
import shutil
import stat
import sys
import tempfile
from collections.abc import Iterator
from contextlib import contextmanager
from pathlib import Path
from typing import BinaryIO

from .packing import packed, packing_of_name
from .program import CannotRun
from .progress import Bar
from .roots import Root
from .tree import read_tree
from hard_links import join_names
from image_to_tar import Form, Writer
from tree_folder import write_folder
from tree_image import Node, Notices, Trouble

ARCHIVE_ENDINGS = (".tar", ".tgz", ".tbz2", ".txz", ".tzst", ".tar.gz", ".tar.bz2", ".tar.xz", ".tar.zst")
FORM = Form(times=False, acl_attributes=True)


class Sink:
    """A file that is written, with a bar."""

    def __init__(self, file: BinaryIO, bar: Bar) -> None:
        self._file = file
        self._bar = bar
        self.flush = file.flush

    def write(self, data: bytes) -> None:
        self._file.write(data)
        self._bar.add(len(data))


def is_folder_output(out: str, root: Root) -> bool:
    """Whether the output is a folder: its name ends with a slash, a directory is there, or the input is one.

    A name that ends as an archive's does, and `-`, are never folders.
    """
    if out == "-" or out.endswith(ARCHIVE_ENDINGS):
        return False
    return out.endswith("/") or os.path.isdir(out) or root.is_folder


def shown_output(out: str) -> str:
    """An output as messages name it."""
    return "standard output" if out == "-" else out


def _beside(out: Path) -> dict[str, str]:
    """How a new name beside an output is made."""
    return {"prefix": f".{out.name[:200]}.", "suffix": ".new", "dir": str(out.parent)}


def _usual_mode() -> int:
    """The mode that a new file has by the user's mask."""
    mask = os.umask(0o077)
    os.umask(mask)
    return 0o666 & ~mask


def _written_in_place(out: str) -> bool:
    """Whether an output is there that no rename may replace, as a pipe or a device."""
    return os.path.exists(out) and not stat.S_ISREG(os.stat(out).st_mode)


@contextmanager
def new_file(out: str) -> Iterator[BinaryIO]:
    """A file that is renamed to `out` when all is written; if anything fails `out` stays as it was."""
    if out == "-":
        if sys.stdout.isatty():
            raise CannotRun("standard output is a terminal, to which no archive is written")
        yield sys.stdout.buffer
        sys.stdout.buffer.flush()
    elif _written_in_place(out):
        with open(out, "wb") as file:
            yield file
    else:
        yield from _renamed_file(Path(os.path.realpath(out)))


def _renamed_file(out: Path) -> Iterator[BinaryIO]:
    handle, beside = tempfile.mkstemp(**_beside(out))
    try:
        with open(handle, "wb") as file:
            yield file
        os.chmod(beside, _usual_mode())
        os.rename(beside, out)
    except BaseException:
        Path(beside).unlink(missing_ok=True)
        raise


@contextmanager
def named_faults(out: str) -> Iterator[None]:
    """Faults of writing as CannotRun, with the name of the output."""
    try:
        yield
    except Trouble as trouble:
        raise CannotRun(f"{shown_output(out)}: {trouble}") from None
    except BrokenPipeError:
        raise
    except OSError as fault:
        raise CannotRun(f"{shown_output(out)}: {fault.strerror or fault}") from None


@contextmanager
def archive_writer(root: Root, total: int, out: str) -> Iterator[Writer]:
    """A writer of the archive at `out`, whose large contents come from a root; `total` is about its length."""
    bar = Bar(f"writing {shown_output(out)}", total)
    with named_faults(out), new_file(out) as file, packed(file, packing_of_name(out)) as sink:
        writer = Writer(Sink(sink, bar), root.aside, FORM)
        yield writer
        writer.finish()
        bar.end()


def share_contents(root: Root, tree: dict[bytes, Node]) -> None:
    """Give names of one object that stand for the same bytes the same content, however a run has written it."""
    for group in root.hard_links:
        nodes = [tree[path] for path in group if path in tree and tree[path].kind == "f"]
        for at, node in enumerate(nodes):
            same = next((it for it in nodes[:at] if root.are_same(it.content, node.content)), node)
            node.content = same.content


def joined_names(root: Root, tree: dict[bytes, Node]) -> dict[bytes, bytes]:
    """The names of a tree that are hard links, each with the first name of its object."""
    return join_names([tree[path] for path in group if path in tree] for group in root.hard_links)


def split_names(root: Root, tree: dict[bytes, Node], first_names: dict[bytes, bytes]) -> Iterator[bytes]:
    """The names that were hard links of one object and are there, but not as names of one object any more."""
    for group in root.hard_links:
        kept = [path for path in group if path in tree]
        for path in kept[1:]:
            if path not in first_names:
                yield path


class _FolderFiles:
    """The files of a tree, for `write_folder`."""

    def __init__(self, root: Root) -> None:
        self._root = root

    def size(self, node: Node) -> int:
        return self._root.size(node.content)

    def pieces(self, node: Node) -> Iterator[bytes]:
        return self._root.pieces(node.content)


def write_tree(root: Root, tree: dict[bytes, Node], out: str) -> None:
    """Write a whole tree, an archive or a folder by the name of `out`."""
    first_names = joined_names(root, tree)
    if is_folder_output(out, root):
        with named_faults(out):
            _write_folder(root, tree, first_names, Path(out))
        return
    total = sum(root.size(node.content) for node in tree.values() if node.kind == "f")
    with archive_writer(root, total, out) as writer:
        for node in tree.values():
            if node.path in first_names:
                writer.add_hard_link(node, first_names[node.path])
            else:
                writer.add(node)


class _FolderNotices(Notices):
    """Warnings about a folder alone: that contents stand aside is its usual form."""

    def note(self, text: str) -> None:
        pass


def _write_folder(root: Root, tree: dict[bytes, Node], first_names: dict[bytes, bytes], out: Path) -> None:
    """Write a folder beside its place and rename it."""
    if out.is_dir() and any(out.iterdir()):
        raise CannotRun(f"{out}: the folder is not empty")
    place = Path(os.path.realpath(out))
    beside = tempfile.mkdtemp(**_beside(place))
    try:
        write_folder(beside, root.facts, list(tree.values()), _FolderFiles(root), _FolderNotices("provision-image"),
                     first_names)
        os.rename(beside, place)
    except BaseException:
        shutil.rmtree(beside, ignore_errors=True)
        raise


def write_root(root: Root, image: bytes, out: str) -> None:
    """Write the tree of an image that runs over a root have given.

    The same image gives the same bytes: members in order of paths, with no access or change timestamps
    and no names of users. Raises CannotRun, and `out` is as before then.
    """
    tree = read_tree(image)
    share_contents(root, tree)
    write_tree(root, tree, out)
