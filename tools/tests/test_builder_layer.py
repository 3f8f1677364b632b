"""Layers: the old root with the layer unpacked over it is the new root, over generated pairs of roots."""

import copy
import os
import random
import subprocess
import tarfile
import unittest
from io import BytesIO
from pathlib import Path

from tests.builder_helper import BuilderCase, Thing, remove, shared_names, unpack
from tests.helper import archive, file_member, folder_member

from builder.layer import layer_nodes, write_layer
from builder.outputs import write_tree
from builder.roots import Root, open_root
from builder.tree import read_tree
from tree_image import Node, path_key

NAMES = (b"a", b"b", b"c", b"d\xc3\xa9", b"e" * 120)
OLD, NEW = 5000000, 9000000
ACL = "u:7:rwx,m::r-x"


def new_node(draw: random.Random, path: bytes, kind: str, stamp: int) -> Node:
    """A node with drawn owners, mode, ACL and contents."""
    node = Node(kind, path, draw.choice((0o755, 0o600, 0o4711)), draw.choice((0, 7)), draw.choice((0, 8)),
                stamp, stamp, stamp, stamp)
    if kind == "l":
        node.mode, node.target = 0o777, draw.choice((b"t", b"u" * 150))
    elif kind == "f":
        node.content = draw.choice((b"", b"text\n", bytes(range(256)) * draw.choice((1, 2))))
    elif kind == "c":
        node.major, node.minor = draw.choice(((1, 3), (5, 1)))
    if kind in "df" and draw.random() < 0.2:
        node.acl = ACL
    if kind == "f" and draw.random() < 0.2:
        node.attrs = {b"user.k": b"v"}
    return node


class Grown:
    """A tree that is drawn, and then changed as runs change trees."""

    def __init__(self, seed: int) -> None:
        self.draw = random.Random(seed)
        self.tree: dict[bytes, Node] = {b"/": new_node(self.draw, b"/", "d", OLD)}
        self.groups: list[list[bytes]] = []
        for _ in range(self.draw.randrange(3, 25)):
            self.add(OLD)
        self.link_some()

    def directories(self) -> list[bytes]:
        return [path for path, node in self.tree.items() if node.kind == "d"]

    def add(self, stamp: int) -> None:
        """A new object, with all below it when it takes the place of another one."""
        above = self.draw.choice(self.directories())
        path = (b"" if above == b"/" else above) + b"/" + self.draw.choice(NAMES)
        self.remove(path)
        self.tree[path] = new_node(self.draw, path, self.draw.choice("ddfflpc"), stamp)

    def remove(self, path: bytes) -> None:
        for other in [it for it in self.tree if it == path or it.startswith(path + b"/")]:
            del self.tree[other]

    def link_some(self) -> None:
        """More names of a file."""
        files = [path for path, node in self.tree.items() if node.kind == "f"]
        for first in files[:self.draw.randrange(0, 3)]:
            group = [first]
            for number in range(self.draw.randrange(1, 4)):
                above = self.draw.choice(self.directories())
                path = (b"" if above == b"/" else above) + b"/link%d-%d" % (len(self.groups), number)
                self.tree[path] = copy.deepcopy(self.tree[first])
                self.tree[path].path = path
                group.append(path)
            self.groups.append(sorted(group, key=path_key))

    def change(self) -> None:
        """A few changes: objects that go, come, become another kind, or get another mode, owner or text."""
        for _ in range(self.draw.randrange(0, 7)):
            path = self.draw.choice(list(self.tree))
            what = self.draw.randrange(4)
            if what == 0 and path != b"/":
                self.remove(path)
            elif what == 1:
                self.add(NEW)
            elif what == 2 and self.tree[path].kind != "l":
                self.set_mode([path])
            elif what == 3 and self.groups:
                self.set_mode(self.draw.choice(self.groups))
        self.touch()

    def set_mode(self, paths: list[bytes]) -> None:
        for path in paths:
            if path in self.tree and self.tree[path].kind != "l":
                self.tree[path].mode ^= 0o070
                self.tree[path].modify = NEW

    def touch(self) -> None:
        """Timestamps alone."""
        for node in self.tree.values():
            if self.draw.random() < 0.1:
                node.modify = NEW


def ordered(tree: dict[bytes, Node]) -> dict[bytes, Node]:
    return {path: tree[path] for path in sorted(tree, key=path_key)}


class Layers(BuilderCase):
    COUNT = 150

    def archive_of(self, tree: dict[bytes, Node], groups: list[list[bytes]], name: str) -> bytes:
        """The archive of a tree, written by the tool over a root without contents of its own."""
        empty = Root("empty", b"", {}, None, hard_links=groups)
        write_tree(empty, ordered(tree), str(self.room / name))
        return (self.room / name).read_bytes()

    def layer_of(self, grown: Grown) -> tuple[bytes, bytes, bytes]:
        """The old root, the layer, and the new root of a tree that is changed."""
        old = self.archive_of(grown.tree, grown.groups, "old.tar")
        root = open_root(str(self.room / "old.tar"))
        before = read_tree(root.image)
        kept = {path: node.content for path, node in before.items()}
        grown.tree = copy.deepcopy(before)
        grown.change()
        after = ordered(grown.tree)
        self.assertEqual(kept, {path: node.content for path, node in before.items()})
        write_tree(root, copy.deepcopy(after), str(self.room / "new.tar"))
        write_layer(root, before, after, str(self.room / "layer.tar"))
        root.close()
        return old, self.read("layer.tar"), self.read("new.tar")

    def test_the_old_root_with_the_layer_is_the_new_root(self):
        empty = 0
        for seed in range(self.COUNT):
            with self.subTest(seed=seed):
                old, layer, new = self.layer_of(Grown(seed))
                made, wanted = unpack(old, layer), unpack(new)
                self.assertEqual(list(made.keys() ^ wanted.keys()), [])
                for path, thing in wanted.items():
                    self.assertEqual(made[path].essence(), thing.essence(), path)
                self.assertEqual(shared_names(made), shared_names(wanted))
                self.check_times(layer, made, wanted, unpack(old))
                empty += not tarfile.open(fileobj=BytesIO(layer)).getmembers()
        self.assertGreater(empty, 5)

    def check_times(self, layer: bytes, made: dict[str, Thing], wanted: dict[str, Thing], old: dict[str, Thing]) -> None:
        """What the layer has, has the new timestamp; else it differed in that alone."""
        for path, thing in wanted.items():
            if made[path].mtime != thing.mtime:
                self.assertEqual(old[path].essence(), thing.essence(), path)

    def test_the_layer_is_empty_where_nothing_but_timestamps_changed(self):
        grown = Grown(3)
        before = copy.deepcopy(grown.tree)
        for node in grown.tree.values():
            node.modify = NEW
        self.assertEqual(layer_nodes(before, grown.tree), [])


class Forms(unittest.TestCase):
    """Each case of the image specification, by hand."""

    def members(self, before: list[Node], after: list[Node]) -> list[tuple[str, str]]:
        root = [Node("d", b"/")]
        nodes = layer_nodes({it.path: it for it in root + before}, {it.path: it for it in root + after})
        return [(node.kind, node.path.decode()) for node in nodes]

    @staticmethod
    def file(path: str, content: bytes = b"") -> Node:
        return Node("f", path.encode(), 0o644, content=content)

    @staticmethod
    def folder(path: str) -> Node:
        return Node("d", path.encode())

    def test_a_name_that_went(self):
        self.assertEqual(self.members([self.folder("/d"), self.file("/d/x")], [self.folder("/d")]),
                         [("d", "/"), ("d", "/d"), ("f", "/d/.wh.x")])

    def test_a_directory_that_went_has_one_whiteout(self):
        before = [self.folder("/d"), self.folder("/d/e"), self.file("/d/e/x")]
        self.assertEqual(self.members(before, []), [("d", "/"), ("f", "/.wh.d")])

    def test_a_directory_that_became_a_file(self):
        before = [self.folder("/d"), self.file("/d/x")]
        self.assertEqual(self.members(before, [self.file("/d")]), [("d", "/"), ("f", "/d")])

    def test_a_file_that_became_a_directory(self):
        after = [self.folder("/d"), self.file("/d/x")]
        self.assertEqual(self.members([self.file("/d")], after), [("d", "/"), ("d", "/d"), ("f", "/d/x")])

    def test_a_directory_of_which_all_went(self):
        before = [self.folder("/d"), self.file("/d/x"), self.file("/d/y")]
        self.assertEqual(self.members(before, [self.folder("/d")]),
                         [("d", "/"), ("d", "/d"), ("f", "/d/.wh.x"), ("f", "/d/.wh.y")])

    def test_a_change_below_has_the_directories_above(self):
        before = [self.folder("/d"), self.folder("/d/e"), self.file("/d/e/x"), self.file("/d/y")]
        after = before[:2] + [self.file("/d/e/x", b"new"), before[3]]
        self.assertEqual(self.members(before, after), [("d", "/"), ("d", "/d"), ("d", "/d/e"), ("f", "/d/e/x")])


class Names(BuilderCase):
    def test_a_name_that_a_layer_cannot_have(self):
        self.put_file("root.tar", archive(folder_member(b"./"), (file_member(b".wh.a"), b"x")))
        self.set_program("#!/bin/sh\nsed 's:^f /.wh.a 0644:f /.wh.a 0600:'\n")
        self.fails("layer", "root.tar", "layer.tar",
                   said="/.wh.a: a layer cannot have a name that begins with `.wh.`")
        self.assertFalse((self.room / "layer.tar").exists())

    def test_a_layer_is_no_folder(self):
        self.put_file("root.tar", archive(folder_member(b"./")))
        (self.room / "folder").mkdir()
        for out in ("folder", "folder/", "other/"):
            self.fails("layer", "root.tar", out, said=f"{out}: a layer is an archive, not a folder")


class Umoci(BuilderCase):
    """The layer in an OCI image, put there and unpacked by umoci."""

    def setUp(self) -> None:
        super().setUp()
        self.need("umoci", "tar")
        if os.geteuid() != 0:
            self.skipTest("this is not root")

    def test_it_unpacks_to_the_new_root(self):
        for seed in (1, 4, 9):
            with self.subTest(seed=seed):
                self.check_seed(seed)

    def check_seed(self, seed: int) -> None:
        room = self.room / str(seed)
        room.mkdir()
        layers = Layers()
        layers.room = room
        layers.layer_of(Grown(seed))
        for command in ("umoci init --layout image", "umoci new --image image:a",
                        "umoci raw add-layer --image image:a old.tar", "umoci raw add-layer --image image:a layer.tar",
                        "umoci unpack --image image:a bundle", "mkdir wanted",
                        "tar --numeric-owner --xattrs --xattrs-include='*' -xpf new.tar -C wanted"):
            done = subprocess.run(command, shell=True, cwd=room, capture_output=True, timeout=100, check=False)
            self.assertEqual(done.returncode, 0, command + done.stderr.decode(errors="replace"))
        self.assertEqual(self.listed(room / "bundle/rootfs"), self.listed(room / "wanted"))

    def listed(self, top: Path) -> list[tuple]:
        """The objects below a directory, with their ACLs and attributes, and what is one object with them."""
        found, firsts = [], {}
        for path in sorted(top.rglob("*")):
            it = path.lstat()
            name = str(path.relative_to(top))
            content = path.read_bytes() if path.is_file() and not path.is_symlink() else b""
            target = os.readlink(path) if path.is_symlink() else ""
            attributes = {} if path.is_symlink() else {key: os.getxattr(path, key) for key in os.listxattr(path)}
            first = firsts.setdefault(it.st_ino, name)
            found.append((name, it.st_mode, it.st_uid, it.st_gid, it.st_rdev, content, target, attributes, first))
        return found


if __name__ == "__main__":
    unittest.main()
