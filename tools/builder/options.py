"""Options that several commands have, and what they stand for."""

import argparse
import os
import time
from dataclasses import dataclass
from datetime import datetime, timezone

from .ids import KeptIds, old_accounts
from .program import CannotRun, Program
from .roots import Root, open_root
from .runs import DEFAULT_RUNS, Run, inline_files, parse_runs
from tar_to_image import fact_option

INPUT_HELP = "a tar (plain, .gz, .xz, .bz2, .zst), `-` for standard input, or a prepared folder"


@dataclass(slots=True)
class Session:
    """What the options of a command stand for: the program, the root, the runs, their time in microseconds,
    and the older root whose numbers are kept, if one is named."""

    program: Program
    root: Root
    runs: list[Run]
    now: int
    kept_ids: KeptIds | None = None
    old_name: str = ""


def add_input(parser: argparse.ArgumentParser) -> None:
    """The input, which every command has."""
    parser.add_argument("input", metavar="IN", help=INPUT_HELP)


def add_run_options(parser: argparse.ArgumentParser) -> None:
    """The options on runs and on what is said of them."""
    parser.add_argument("--runs", metavar="RUNS", default=DEFAULT_RUNS,
                        help="the runs in their order, with commas between them, as `sysusers, remove create boot, "
                             f"clean, purge /etc/a.conf` (default: {DEFAULT_RUNS})")
    parser.add_argument("--now", metavar="TIME", type=time_option,
                        help="the time of the runs, as 2026-01-01T00:00:00Z (default: SOURCE_DATE_EPOCH if that is "
                             "set, otherwise the clock's)")
    parser.add_argument("--fact", action="append", default=[], type=fact_option, metavar="LETTER=VALUE",
                        help="the value of a specifier, as b=BOOTID; an empty value removes the one that the root gives")
    parser.add_argument("--strict", action="store_true",
                        help="warnings and notes of the runs count as errors, and what a tree image cannot hold ends "
                             "the command")
    parser.add_argument("--json", action="store_true", help="messages as JSON objects, one a line")


def add_ids_option(parser: argparse.ArgumentParser) -> None:
    """The option on the numbers of new users and groups."""
    parser.add_argument("--ids-from", metavar="OLD",
                        help="new users and groups get the UIDs and GIDs that they have in this older root: a tar, a "
                             "prepared folder, or a directory with passwd and group")


def time_option(text: str) -> int:
    """A time in microseconds since 1970."""
    try:
        moment = datetime.fromisoformat(text.replace("Z", "+00:00").replace("z", "+00:00"))
    except ValueError:
        moment = None
    if moment is None or moment.tzinfo is None:
        raise argparse.ArgumentTypeError(f"{text!r} is not a time such as 2026-01-01T00:00:00Z")
    since = moment.astimezone(timezone.utc) - datetime(1970, 1, 1, tzinfo=timezone.utc)
    micros = (since.days * 86400 + since.seconds) * 1000000 + since.microseconds
    if micros < 0:
        raise argparse.ArgumentTypeError(f"{text!r} is before 1970")
    return micros


def time_of_runs(given: int | None) -> int:
    """The given time, otherwise that of SOURCE_DATE_EPOCH, otherwise the clock's, in microseconds since 1970."""
    if given is not None:
        return given
    epoch = os.environ.get("SOURCE_DATE_EPOCH")
    if not epoch:
        return time.time_ns() // 1000
    if not (epoch.isascii() and epoch.isdigit()):
        raise CannotRun(f"SOURCE_DATE_EPOCH is not a number of seconds: {epoch!r}")
    return int(epoch) * 1000000


def begin(arguments: argparse.Namespace) -> Session:
    """What the options stand for; the root is read."""
    runs = parse_runs(arguments.runs)
    now = time_of_runs(arguments.now)
    program = Program(arguments.program)
    old = getattr(arguments, "ids_from", None)
    kept_ids = None if old is None else KeptIds(old_accounts(old))
    root = open_root(arguments.input, inline=inline_files(runs), facts=dict(arguments.fact), strict=arguments.strict)
    return Session(program, root, runs, now, kept_ids, old or "")
