"""provision-image layer: does the runs over a root, and writes an OCI layer of what they changed alone.

Unpacked over the old root, the layer gives the new root, timestamps aside. It
has the new and changed objects with all directories above them, and for each
name that went a whiteout, an empty file `.wh.NAME`. An object that differs in
its timestamps alone is left out, so a run that changes nothing gives an empty
layer.

- If a directory became another kind of object, or another kind became a
  directory, the member of the new object is all: who unpacks it removes what
  was there first.
- Each name that went from a directory has a whiteout of its own. The opaque
  whiteout is not used: it would hide what stays.
- Names of one object that all changed alike are a file and hard links to it.
  If only some of them changed, the others stay in the old root.
"""

import argparse
import os

from .apply import OUTPUT_HELP, do_runs, findings_of_objects, read_trees, report_of
from .options import add_ids_option, add_input, add_run_options, begin
from .outputs import archive_writer
from .program import CannotRun
from .roots import Root
from .tree import Change, changes
from hard_links import join_names
from tree_image import Node, parent_of, path_key, printed_path

EXAMPLE = """example:
  provision-image layer root.tar layer.tar.gz
  umoci raw add-layer --image image:tag layer.tar
"""
WHITEOUT = b".wh."


def add_arguments(parser: argparse.ArgumentParser) -> None:
    add_input(parser)
    parser.add_argument("output", metavar="OUT", help=OUTPUT_HELP.replace("; or a folder that is absent or empty", ""))
    add_run_options(parser)
    add_ids_option(parser)


def run(arguments: argparse.Namespace) -> int:
    if arguments.output.endswith("/") or os.path.isdir(arguments.output):
        raise CannotRun(f"{arguments.output}: a layer is an archive, not a folder")
    session = begin(arguments)
    rans = do_runs(session)
    before, after = read_trees(session.root, rans[-1].image)
    report = report_of(session, rans, arguments)
    report.show(findings_of_objects(session.root, after))
    write_layer(session.root, before, after, arguments.output)
    return report.finish()


def whiteout(path: bytes) -> Node:
    """The empty file that says that a name of an older layer is gone."""
    above, name = path.rsplit(b"/", 1)
    return Node("f", above + b"/" + WHITEOUT + name, 0o644, content=b"")


def _has_gone(change: Change, after: dict[bytes, Node]) -> bool:
    """Whether a name went that nothing but a whiteout removes: its directory is still there."""
    if change.after is not None:
        return False
    above = after.get(parent_of(change.path))
    return above is not None and above.kind == "d"


def _check_name(path: bytes) -> None:
    """Refuse a name that means something else in a layer."""
    if any(name.startswith(WHITEOUT) for name in path.split(b"/")):
        raise CannotRun(f"{printed_path(path)}: a layer cannot have a name that begins with `.wh.`")


def layer_nodes(before: dict[bytes, Node], after: dict[bytes, Node]) -> list[Node]:
    """The nodes of a layer in order of paths, whiteouts among them."""
    nodes: dict[bytes, Node] = {}
    for change in changes(before, after):
        if change.after is not None:
            nodes[change.path] = change.after
        elif not _has_gone(change, after):
            continue
        else:
            node = whiteout(change.path)
            nodes[node.path] = node
        _check_name(change.path)
        _add_parents(change.path, after, nodes)
    return [nodes[path] for path in sorted(nodes, key=path_key)]


def _add_parents(path: bytes, after: dict[bytes, Node], nodes: dict[bytes, Node]) -> None:
    """Add the directories above a path, so that who unpacks the layer alone knows their owners and modes."""
    while path != b"/":
        path = parent_of(path)
        if path in nodes:
            return
        nodes[path] = after[path]


def write_layer(root: Root, before: dict[bytes, Node], after: dict[bytes, Node], out: str) -> None:
    """Write the layer that makes the new tree of the old one."""
    nodes = layer_nodes(before, after)
    by_path = {node.path: node for node in nodes}
    first_names = join_names([by_path[path] for path in group if path in by_path] for group in root.hard_links)
    total = sum(root.size(node.content) for node in nodes if node.kind == "f")
    with archive_writer(root, total, out) as writer:
        for node in nodes:
            if node.path in first_names:
                writer.add_hard_link(node, first_names[node.path])
            else:
                writer.add(node)
