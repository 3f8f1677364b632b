"""The examples for image builders: the files that they name are there, their commands parse, and their parts run."""

import argparse
import os
import re
import shlex
import subprocess
import unittest

from tests.helper import TOOLS, ToolCase, archive, file_member, folder_member
from tests.program import COMMAND, PROGRAM, ProgramCase

from builder.cli import make_parser  # noqa: E402

EXAMPLES = TOOLS.parent / "examples"
CONTAINER, MKOSI, CI = (EXAMPLES / name for name in ("container", "mkosi", "ci"))
INSTRUCTIONS = {"ARG", "FROM", "RUN", "COPY", "USER", "CMD"}
EPOCH = "1767225600"


def instructions() -> list[tuple[str, str]]:
    """The instructions of the Containerfile with their texts, each on one line."""
    text = (CONTAINER / "Containerfile").read_text().replace("\\\n", " ")
    lines = [line for line in text.splitlines() if line and not line.startswith("#")]
    return [(line.split(" ", 1)[0], line.split(" ", 1)[1]) for line in lines]


def shell_of(text: str) -> str:
    """The shell command of a RUN instruction, without its mounts."""
    return re.sub(r"^(--mount=\S+\s+)+", "", text).strip()


def steps() -> list[str]:
    """The shell scripts of the CI job."""
    found = re.findall(r"^ +run: \|\n((?: {10}.*\n|\n)+)", (CI / "check-image.yml").read_text(), re.MULTILINE)
    return [re.sub(r"^ {10}", "", text, flags=re.MULTILINE) for text in found]


def scripts() -> list[str]:
    """All shell scripts of the examples."""
    return [*(shell_of(text) for word, text in instructions() if word == "RUN"), *steps(),
            (MKOSI / "mkosi.finalize").read_text()]


def commands() -> list[argparse.Namespace]:
    """The commands of provision-image in all scripts, as its parser reads them."""
    all_lines = [line.strip() for text in scripts() for line in text.splitlines()]
    lines = [line for line in all_lines if line.startswith("provision-image ")]
    return [make_parser().parse_args(shlex.split(re.split(r" (?:2?>|\|\|)", line)[0])[1:]) for line in lines]


class Parsed(ToolCase):
    def test_the_containerfile(self):
        self.assertLessEqual({word for word, _ in instructions()}, INSTRUCTIONS)
        stages = [text.split(" AS ")[1] for word, text in instructions() if word == "FROM" and " AS " in text]
        for word, text in instructions():
            if word == "COPY" and not text.startswith("--from="):
                self.assertTrue((CONTAINER / text.split()[0]).is_file(), text)
            for stage in re.findall(r"from=(\w+)", text):
                self.assertIn(stage, stages)

    def test_scripts_are_shell(self):
        self.need("bash")
        self.assertEqual(len(steps()), 3)
        for script in scripts():
            done = subprocess.run(["bash", "-n", "-c", script], capture_output=True, text=True, check=False)
            self.assertEqual((done.returncode, done.stderr), (0, ""), script)

    def test_commands_are_those_of_provision_image(self):
        self.assertEqual([it.command for it in commands()], ["apply", "check", "diff", "check", "apply"])

    def test_the_settings_of_mkosi(self):
        text = (MKOSI / "mkosi.conf").read_text()
        for line in text.splitlines():
            self.assertRegex(line, r"^(|#.*|\[\w+\]|\w+=.*)$")
        self.assertTrue(os.access(MKOSI / "mkosi.finalize", os.X_OK))


@unittest.skipUnless(PROGRAM, "CHECK_PROGRAM names no program")
class Run(ProgramCase):
    """The steps as a builder runs them, over a root with the application's configuration."""

    def setUp(self) -> None:
        super().setUp()
        copies = [(file_member(text.split()[1][1:].encode()), (CONTAINER / text.split()[0]).read_bytes())
                  for word, text in instructions() if word == "COPY" and not text.startswith("--from=")]
        folders = [b"./", b"etc", b"run", b"usr", b"usr/lib", b"usr/lib/sysusers.d", b"usr/lib/tmpfiles.d", b"var",
                   b"var/lib"]
        (self.room / "root.tar").write_bytes(archive(
            *map(folder_member, folders), (file_member(b"etc/passwd"), b"root:x:0:0::/root:/bin/sh\n"),
            (file_member(b"etc/group"), b"root:x:0:\n"), *copies))
        self.bin = self.room / "bin"
        self.bin.mkdir()
        (self.bin / "provision-image").write_text(
            f"#!/bin/sh\nexec python3 {COMMAND} --program {PROGRAM} \"$@\"\n")
        (self.bin / "provision-image").chmod(0o755)
        self.environment = {**os.environ, "PATH": f"{self.bin}:{os.environ['PATH']}", "SOURCE_DATE_EPOCH": EPOCH}

    def shell(self, script: str, **more: str) -> None:
        """Run a script in the folder; its failure is the test's."""
        done = subprocess.run(["bash", "-euc", script], cwd=self.room, env={**self.environment, **more},
                              capture_output=True, text=True, check=False)
        self.assertEqual(done.returncode, 0, done.stdout + done.stderr)

    def test_the_container_steps(self):
        self.need("bash", "tar")
        script = next(shell_of(text) for word, text in instructions() if word == "RUN" and "provision-image" in text)
        self.shell(script.replace(" /", " "))
        self.shell("mkdir new && tar -C new --no-same-owner -xf new.tar")
        self.assertEqual((self.room / "new/run/app/state").read_text(), "ready")
        self.assertEqual((self.room / "new/var/lib/app").stat().st_mode & 0o7777, 0o750)
        self.assertIn("app:x:999:999:Application:/var/lib/app:", (self.room / "new/etc/passwd").read_text())

    def test_the_steps_of_the_job(self):
        self.need("bash")
        self.shell("".join(step for step in steps() if "docker" not in step))
        self.assertIn("+ /run/app/state  file, 0644, app (999) : app (999)\n",
                      (self.room / "differences.txt").read_text())
        self.assertIn('"kind": "summary"', (self.room / "messages.json").read_text())

    def test_a_bad_line_of_another_package_does_not_fail_the_job(self):
        self.need("bash", "tar")
        (self.room / "more/usr/lib/tmpfiles.d").mkdir(parents=True)
        (self.room / "more/usr/lib/tmpfiles.d/other.conf").write_text("y /a\n")
        self.shell("tar -rf root.tar -C more usr/lib/tmpfiles.d/other.conf")
        self.shell("".join(step for step in steps() if "docker" not in step))
        self.assertIn("+ /run/app  directory", (self.room / "differences.txt").read_text())
        self.assertIn('"code": "UnknownType"', (self.room / "messages.json").read_text())

    def test_the_script_of_mkosi(self):
        self.need("bash", "tar")
        if os.geteuid() != 0:
            self.skipTest("only root can unpack the owners of a root")
        (self.room / "root").mkdir()
        self.shell("tar -C root -xpf root.tar; touch root/old")
        self.shell(str(MKOSI / "mkosi.finalize"), BUILDROOT=str(self.room / "root"))
        state = (self.room / "root/run/app/state").stat()
        self.assertEqual((state.st_uid, state.st_gid, state.st_mtime), (999, 999, int(EPOCH)))
        self.assertTrue((self.room / "root/old").is_file())

    def test_a_failing_line_keeps_the_root(self):
        self.need("bash", "tar")
        (self.room / "root/usr/lib/tmpfiles.d").mkdir(parents=True)
        (self.room / "root/usr/lib/tmpfiles.d/a.conf").write_text("y /a\n")
        environment = {**self.environment, "BUILDROOT": str(self.room / "root")}
        done = subprocess.run([MKOSI / "mkosi.finalize"], env=environment, capture_output=True, text=True, check=False)
        self.assertEqual(done.returncode, 1, done.stderr)
        self.assertIn("unknown type 'y'", done.stderr)
        self.assertTrue((self.room / "root/usr/lib/tmpfiles.d/a.conf").is_file())


if __name__ == "__main__":
    unittest.main()
