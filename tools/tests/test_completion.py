"""Completion for bash and the manual page name each command and each option, and no others."""

import argparse
import re
import shlex
import subprocess
import unittest

from tests.helper import TOOLS, ToolCase

from builder.cli import make_parser  # noqa: E402

TOP = TOOLS.parent
SCRIPT = TOP / "completions/provision-image.bash"


def parsers() -> dict[str, argparse.ArgumentParser]:
    """The parsers of all commands by their names."""
    for action in make_parser()._actions:
        if isinstance(action, argparse._SubParsersAction):
            return dict(action.choices)
    raise AssertionError("no commands")


def options_of(parser: argparse.ArgumentParser) -> set[str]:
    """The long options of a parser."""
    return {word for action in parser._actions for word in action.option_strings if word.startswith("--")}


class Completion(ToolCase):
    def complete(self, line: str) -> list[str]:
        """What bash offers for the last word of a line."""
        words = line.split(" ")
        shown = " ".join(map(shlex.quote, words))
        script = (f"compopt() {{ :; }}; . {shlex.quote(str(SCRIPT))}; COMP_WORDS=({shown}); "
                  f"COMP_CWORD={len(words) - 1}; _provision_image; printf '%s\\n' \"${{COMPREPLY[@]}}\"")
        done = subprocess.run(["bash", "-uc", script], capture_output=True, text=True, check=False)
        self.assertEqual((done.returncode, done.stderr), (0, ""))
        return done.stdout.split()

    def setUp(self) -> None:
        super().setUp()
        self.need("bash")

    def test_commands(self):
        self.assertEqual(set(self.complete("provision-image ")), set(parsers()) | options_of(make_parser()))
        self.assertEqual(self.complete("provision-image --program ./provision ch"), ["check"])

    def test_options_of_each_command(self):
        for name, parser in parsers().items():
            self.assertEqual(set(self.complete(f"provision-image {name} --")), options_of(parser), name)

    def test_values(self):
        self.assertEqual(self.complete("provision-image diff --runs cl"), ["clean"])
        self.assertEqual(self.complete("provision-image why /"), [])
        self.assertEqual(self.complete("provision-image check --now --"), [])


class Manual(unittest.TestCase):
    def test_it_names_each_option(self):
        text = (TOP / "man/provision-image.1").read_text()
        named = set(re.findall(r"^\.It Fl -([a-z-]+)", text, re.MULTILINE))
        options = {word[2:] for parser in parsers().values() for word in options_of(parser)}
        options |= {word[2:] for word in options_of(make_parser())}
        self.assertEqual(named | {"help", "version"}, options)
        self.assertEqual(set(re.findall(r"^\.It Cm ([a-z]+)$", text, re.MULTILINE)), set(parsers()))


class Help(unittest.TestCase):
    def test_each_command_has_an_example(self):
        for name, parser in parsers().items():
            self.assertIn(f"  provision-image {name} ", parser.format_help(), name)


if __name__ == "__main__":
    unittest.main()
