"""Hard links: several names of one object, which a tree image holds as objects of their own.

Names that were one object stay one as long as they agree in all but their
timestamps. As in a file system the latest modify timestamp is that of all.
"""

from collections.abc import Hashable, Iterable

from tree_image import Node


def essence(node: Node) -> tuple:
    """All that a node has but its path and its timestamps."""
    return (node.kind, node.mode, node.uid, node.gid, node.acl, node.attrs, node.letters,
            node.target, node.major, node.minor, node.content)


def groups_of(named: Iterable[tuple[Hashable, Node]]) -> list[list[Node]]:
    """The nodes that share a number of an object, for each number that several have."""
    groups: dict[Hashable, list[Node]] = {}
    for number, node in named:
        groups.setdefault(number, []).append(node)
    return [group for group in groups.values() if len(group) > 1]


def join_names(groups: Iterable[list[Node]]) -> dict[bytes, bytes]:
    """For each name that is a hard link the first name of its object, in groups in order of paths.

    The first name gets the latest modify timestamp of all names that are still one object with it.
    """
    first_names: dict[bytes, bytes] = {}
    for group in groups:
        firsts: list[Node] = []
        for node in group:
            first = next((it for it in firsts if essence(it) == essence(node)), None)
            if first is None:
                firsts.append(node)
            else:
                first.modify = max(first.modify, node.modify)
                first_names[node.path] = first.path
    return first_names
