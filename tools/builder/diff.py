"""provision-image diff: what the runs would change, path by path. Nothing is written."""

import argparse
import json
import sys

from .apply import do_runs, read_trees, report_of
from .changes import Names, describe, json_of
from .messages import counted
from .options import add_ids_option, add_input, add_run_options, begin
from .tree import changes

EXAMPLE = """example:
  provision-image diff root.tar
  provision-image diff --runs 'remove boot' root.tar
  provision-image diff --exit-code root.tar && echo "the root is as its configuration asks"

`+` is made, `-` is removed, `~` is changed. Timestamps are left out.
"""


def add_arguments(parser: argparse.ArgumentParser) -> None:
    """The arguments of the command."""
    add_input(parser)
    add_run_options(parser)
    add_ids_option(parser)
    parser.add_argument("--exit-code", action="store_true", help="exit status 1 if there is a difference")


def run(arguments: argparse.Namespace) -> int:
    """Show the difference, and give the exit status."""
    session = begin(arguments)
    rans = do_runs(session)
    status = report_of(session, rans, arguments).finish()
    before, after = read_trees(session.root, rans[-1].image)
    names = Names(session.root, after)
    counts = {"made": 0, "removed": 0, "changed": 0}
    for change in changes(before, after):
        shown = json_of(change, names)
        counts[str(shown["change"])] += 1
        sys.stdout.write(json.dumps(shown) + "\n" if arguments.json else describe(change, names))
    sys.stdout.flush()
    total = sum(counts.values())
    if not arguments.json:
        parts = ", ".join(f"{count} {what}" for what, count in counts.items() if count)
        print(f"provision-image: {counted(total, 'path')} would differ{f': {parts}' if parts else ''}", file=sys.stderr)
    return 1 if total and arguments.exit_code else status
