"""The command line of provision-image: its commands, and its exit statuses.

0: all went well. 1: a line of the configuration is invalid or was refused, or a
difference where `--exit-code` asks for it. 2: it could not run; one line on
standard error says why, and the output is as before.
"""

import argparse
import gc
import importlib
import os
import signal
import sys

from .program import CannotRun
from .version import version

COMMANDS = {
    "apply": "make what the configuration of a root asks for, and write the new root",
    "layer": "write an OCI layer of only what the runs change",
    "diff": "show what the runs would change, path by path",
    "check": "check the configuration of a root, as for a CI job",
    "why": "say which lines make, change, clean or remove a path",
}
STATUSES = ("exit status: 0 success; 1 a line is invalid or was refused, or there is a difference with --exit-code; "
            "2 it could not run")


class _Parser(argparse.ArgumentParser):
    """A parser whose faults are one line."""

    def error(self, message: str):
        raise CannotRun(f"{message} (see {self.prog} --help)")


class _ShowVersion(argparse.Action):
    """Prints the version, which is read only then."""

    def __call__(self, parser, namespace, values, option_string=None):
        print(f"provision-image {version()}")
        parser.exit(0)


def make_parser() -> argparse.ArgumentParser:
    """The parser of all commands; each command's module adds its own arguments."""
    parser = _Parser(prog="provision-image", epilog=STATUSES, allow_abbrev=False, description=(
        "Does what the tmpfiles.d and sysusers.d configuration of a root file system asks for. Needs no root and no "
        "container: it reads an archive or a prepared folder, and all work is done by the program `provision`."))
    parser.add_argument("--program", metavar="PROGRAM", help="the program `provision` (default: the installed one)")
    parser.add_argument("--version", action=_ShowVersion, nargs=0, help="show the version and exit")
    commands = parser.add_subparsers(dest="command", metavar="COMMAND", required=True, parser_class=_Parser)
    for name, what in COMMANDS.items():
        module = importlib.import_module(f"builder.{name}")
        command = commands.add_parser(name, help=what, description=f"{what[0].upper()}{what[1:]}.", allow_abbrev=False,
                                      epilog=getattr(module, "EXAMPLE", None),
                                      formatter_class=argparse.RawDescriptionHelpFormatter)
        module.add_arguments(command)
        command.set_defaults(run=module.run)
    return parser


def _end(signal_number, frame):
    """A signal that ends the command ends it as an interrupt does: what was begun is taken away."""
    raise KeyboardInterrupt


def main(words: list[str] | None = None) -> int:
    """Run the command that the words name, and give its exit status."""
    gc.disable()  # there are hardly any cycles, and many nodes
    signal.signal(signal.SIGTERM, _end)
    try:
        arguments = make_parser().parse_args(words)
        status = arguments.run(arguments)
        sys.stdout.flush()
        return status
    except CannotRun as why:
        said = str(why)
    except BrokenPipeError:
        os.dup2(os.open(os.devnull, os.O_WRONLY), sys.stdout.fileno())  # nothing is flushed into it at the end
        said = "standard output was closed"
    except KeyboardInterrupt:
        said = "interrupted"
    except OSError as fault:
        said = f"{fault.filename}: {fault.strerror}" if fault.filename else str(fault)
    except MemoryError:
        said = "out of memory"
    print(f"provision-image: error: {' '.join(said.split())}", file=sys.stderr)
    return 2
