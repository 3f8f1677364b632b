"""The command line: help with an example for each command, faults in one line, and the bar of progress."""

import io
import unittest
from contextlib import redirect_stderr, redirect_stdout
from unittest import mock

from tests.helper import TOOLS  # noqa: F401  puts the tools on the path

from builder import progress
from builder.cli import COMMANDS, main
from builder.progress import Bar


def called(*words: str) -> tuple[int, str, str]:
    """The exit status, standard output and standard error of the command in this process."""
    out, errors = io.StringIO(), io.StringIO()
    with redirect_stdout(out), redirect_stderr(errors), mock.patch("signal.signal"), mock.patch("gc.disable"):
        try:
            status = main(list(words))
        except SystemExit as end:
            status = end.code
    return status, out.getvalue(), errors.getvalue()


class Words(unittest.TestCase):
    def test_each_command_has_help_with_an_example(self):
        for command in COMMANDS:
            status, out, _ = called(command, "--help")
            self.assertEqual(status, 0)
            self.assertIn(f"  provision-image {command} ", out)
        self.assertIn("exit status", called("--help")[1])

    def test_faults_are_one_line(self):
        for words, said in (
            ((), "the following arguments are required: COMMAND (see provision-image --help)"),
            (("aply", "a", "b"), "argument COMMAND: invalid choice: 'aply' (choose from 'apply', 'layer', 'diff', "
                                 "'check', 'why') (see provision-image --help)"),
            (("apply", "a"), "the following arguments are required: OUT (see provision-image apply --help)"),
            (("apply", "a", "b", "--fact", "q=1"), "argument --fact: LETTER=VALUE with one of ABHMWablmovw is needed "
                                                   "(see provision-image apply --help)"),
        ):
            self.assertEqual(called(*words), (2, "", f"provision-image: error: {said}\n"))


class Terminal(io.StringIO):
    def isatty(self) -> bool:
        return True


class Bars(unittest.TestCase):
    def drawn(self, stream: io.StringIO, wait: float, total: int = 100) -> str:
        """What a bar writes while half of the work is done."""
        with mock.patch.object(progress, "WAIT", wait), redirect_stderr(stream):
            bar = Bar("reading x", total)
            bar.add(50)
            bar.end()
        return stream.getvalue()

    def test_on_a_terminal_for_long_work(self):
        self.assertEqual(self.drawn(Terminal(), 0), f"\rreading x [{'#' * 15}{' ' * 15}]  50%\r\x1b[K")

    def test_else_none(self):
        self.assertEqual(self.drawn(Terminal(), 60), "")
        self.assertEqual(self.drawn(io.StringIO(), 0), "")
        self.assertEqual(self.drawn(Terminal(), 0, total=0), "")


if __name__ == "__main__":
    unittest.main()
