"""provision-image apply: does the runs over a root, and writes the new root."""

import argparse

from .catalogue_form import NOTE, WARNING
from .ids import Clash
from .messages import Finding, Report, judge
from .options import Session, add_ids_option, add_input, add_run_options, begin
from .outputs import joined_names, share_contents, split_names, write_tree
from .roots import Root
from .runs import Ran, carry_out
from .tree import read_tree
from tree_image import Node, printed_path

EXAMPLE = """example:
  provision-image apply root.tar new.tar.gz
  podman export CONTAINER | provision-image apply --now=2026-01-01T00:00:00Z - new.tar
"""
OUTPUT_HELP = "a tar, packed by the ending of its name; `-` for standard output; or a folder that is absent or empty"


def add_arguments(parser: argparse.ArgumentParser) -> None:
    add_input(parser)
    parser.add_argument("output", metavar="OUT", help=OUTPUT_HELP)
    add_run_options(parser)
    add_ids_option(parser)


def run(arguments: argparse.Namespace) -> int:
    session = begin(arguments)
    rans = do_runs(session)
    tree = read_tree(rans[-1].image)
    share_contents(session.root, tree)
    report = report_of(session, rans, arguments)
    report.show(findings_of_objects(session.root, tree))
    write_tree(session.root, tree, arguments.output)
    return report.finish()


def do_runs(session: Session) -> list[Ran]:
    """The runs of a session, each over what the one before gave."""
    step = None if session.kept_ids is None else session.kept_ids.step
    return carry_out(session.program, session.root.image, session.runs, session.now, step)


def read_trees(root: Root, image: bytes) -> tuple[dict[bytes, Node], dict[bytes, Node]]:
    """The tree of a root and that of a later image. Files with the same bytes in both have the same content."""
    before, after = read_tree(root.image), read_tree(image)
    for path, node in after.items():
        old = before.get(path)
        if old is not None and old.kind == node.kind == "f" and root.are_same(old.content, node.content):
            node.content = old.content
    return before, after


def report_of(session: Session, rans: list[Ran], arguments: argparse.Namespace) -> Report:
    """A report with what the image does not hold, and the messages of all runs in the order of the runs."""
    report = Report(arguments.strict, arguments.json)
    report.show(_own(WARNING, "NotInImage", it.about, it.text) for it in session.root.losses)
    for ran in rans:
        answer = ran.answer
        report.show(judge(answer.messages, ran.before, arguments.strict, words=ran.words, status=answer.status,
                          after=ran.image))
    if session.kept_ids is not None:
        report.show(_own(WARNING, "NumberNotKept", session.old_name, _clash_text(it))
                    for it in session.kept_ids.clashes)
    return report


def _own(severity: str, code: str, about: str, sentence: str) -> Finding:
    """A message of this tool itself, about a path."""
    return Finding(severity, code, sentence, "", f"{code} {about} {sentence}", about)


def _clash_text(clash: Clash) -> str:
    got = f"; it gets {clash.got}" if clash.got is not None else ""
    return f"the {clash.kind} '{clash.name}' has {clash.wanted} there, which is in use in the new root{got}"


def findings_of_objects(root: Root, tree: dict[bytes, Node]) -> list[Finding]:
    """Notes on sparse files, and on hard links that the runs have parted."""
    found = [_own(NOTE, "SparseFile", printed_path(path), "a sparse file, which is written with all its zeros")
             for path in root.sparse if path in tree]
    found += [_own(NOTE, "PartedHardLink", printed_path(path),
                   "it was a hard link, and the runs did not change all names of the file alike; now it is a file of "
                   "its own")
              for path in split_names(root, tree, joined_names(root, tree))]
    return found
