"""Runs on a folder that are killed at each of their calls, or whose calls fail; skipped without a built program or strace."""

import os
import re
import resource
import subprocess
import unittest
from pathlib import Path

from tests.helper import TOOLS, ToolCase

PROGRAM = Path(os.environ.get("CHECK_PROGRAM") or TOOLS.parent / "crates/provision/out/provision").resolve()
TMPFILES = ("systemd-tmpfiles", "--remove", "--create", "--now=1970-01-12T13:46:40Z", "--root=it")
SYSUSERS = ("systemd-sysusers", "--now=1970-01-12T13:46:40Z", "--root=it")
MANIFEST = (b"tree-image 2\n"
            b"d / 0755 0 0 0,0,0,0 - - - -\n"
            b"d /etc 0755 0 0 0,0,0,0 - - - -\n"
            b"f /etc/shadow 0640 0 42 0,0,0,0 - - - -\n"
            b"end\n")
LINES = """R /run/old
D /run/app 0755 0 0
d /srv/new 0750 0 0
f /srv/new/state 0640 0 0 - ready
f+ /srv/conf 0644 0 0 - fresh
w+ /srv/log - - - - more
C /srv/copy 0755 0 0 - /usr/share/skel
L+ /srv/link - - - - target
"""
SHADOW = "root:*:1::::::\n"

# What stands in `tree` before, and what one complete run leaves there: directories are None.
BEFORE = {
    "etc": None, "etc/passwd": "root:x:0:0:root:/root:/bin/sh\n", "etc/group": "root:x:0:\n", "etc/shadow": SHADOW,
    "etc/sysusers.d": None, "etc/sysusers.d/a.conf": 'u app 400 "App" /var/lib/app\n',
    "etc/tmpfiles.d": None, "etc/tmpfiles.d/a.conf": LINES,
    "run": None, "run/old": None, "run/old/x": "x", "run/old/y": None, "run/app": None, "run/app/stale": "stale",
    "srv": None, "srv/conf": "an old text, longer than the new one", "srv/log": "first ", "srv/link": "no link yet",
    "usr": None, "usr/share": None, "usr/share/skel": None, "usr/share/skel/a": "alpha",
    "usr/share/skel/sub": None, "usr/share/skel/sub/b": "beta",
}
AFTER = {path: text for path, text in BEFORE.items() if not path.startswith(("run/old", "run/app/", "srv/link"))} | {
    "srv/new": None, "srv/new/state": "ready", "srv/conf": "fresh", "srv/log": "first more",
    "srv/copy": None, "srv/copy/a": "alpha", "srv/copy/sub": None, "srv/copy/sub/b": "beta",
}
WITH_USER = BEFORE | {
    "etc/passwd": "root:x:0:0:root:/root:/bin/sh\napp:x:400:400:App:/var/lib/app:/usr/sbin/nologin\n",
    "etc/group": "root:x:0:\napp:x:400:\n", "etc/shadow": SHADOW + "app:!*:11::::::\n",
}

# The modes, owners and link targets of the manifest that differ from those of a real object without an entry.
SAID = {"/etc/shadow": "f 0640 0 42 -", "/srv/new": "d 0750 0 0 -", "/srv/new/state": "f 0640 0 0 -",
        "/srv/link": "l 0777 0 0 target"}
USER_SAID = {"/etc/shadow": "f 0640 0 42 -"}
CALLS = ("openat", "write", "rename", "unlink", "mkdir", "rmdir", "fsync")


def can_trace() -> bool:
    try:
        done = subprocess.run(["strace", "-e", "trace=write", "true"], capture_output=True, check=False)
    except OSError:
        return False
    return done.returncode == 0


@unittest.skipUnless(PROGRAM.is_file(), f"no program at {PROGRAM}")
class Folder(ToolCase):
    def fill(self) -> None:
        subprocess.run(["rm", "-rf", "it"], cwd=self.room, check=True)
        for path, text in ({"": None} | BEFORE).items():
            at = self.room / "it/tree" / path
            if text is None:
                at.mkdir(parents=True)
            else:
                at.write_text(text)
        (self.room / "it/manifest").write_bytes(MANIFEST)

    def run_program(self, words: tuple, *tracer: str, **options) -> subprocess.CompletedProcess:
        return subprocess.run([*tracer, str(PROGRAM), *words], cwd=self.room, stdin=subprocess.DEVNULL,
                              capture_output=True, check=False, **options)

    def manifest(self) -> bytes:
        return (self.room / "it/manifest").read_bytes()

    def real(self) -> dict:
        """Directories and files below `tree`, but for those with a staging name in their path."""
        top = self.room / "it/tree"
        return {str(at.relative_to(top)): None if at.is_dir() else at.read_text()
                for at in top.rglob("*") if ".#tf-" not in str(at)}

    def left(self) -> list:
        return [str(at.relative_to(self.room)) for at in (self.room / "it").rglob("*") if ".#tf-" in at.name]

    def said(self) -> dict:
        """What the manifest says of objects that is not what a real object has anyway."""
        lines = [line.split() for line in self.manifest().decode().splitlines()[1:-1]]
        rows = {row[1]: f"{row[0]} {row[2]} {row[3]} {row[4]} {row[9]}" for row in lines if ".#tf-" not in row[1]}
        return {path: row for path, row in rows.items() if row not in ("d 0755 0 0 -", "f 0644 0 0 -")}

    def check_whole(self, expected: dict, said: dict) -> None:
        found = self.real()
        self.assertEqual(found, expected | {"srv/log": found.get("srv/log")})
        logs = {expected["srv/log"], expected["srv/log"] + "more"}  # an append is done again, as documented
        self.assertIn(found["srv/log"], logs)
        self.assertEqual(self.said(), said)
        self.assertFalse((self.room / "it/manifest.new").exists())


class Runs(Folder):
    def test_a_complete_run(self):
        self.fill()
        done = self.run_program(TMPFILES)
        self.assertEqual((done.returncode, done.stdout, done.stderr), (0, b"", b""))
        self.assertEqual(self.real(), AFTER)
        self.check_whole(AFTER, SAID)
        self.assertEqual(self.left(), [])
        self.fill()
        self.assertEqual(self.run_program(SYSUSERS).returncode, 0)
        self.assertEqual(self.real(), WITH_USER)
        self.check_whole(WITH_USER, USER_SAID)

    def test_new_objects_are_their_owners_alone(self):
        self.fill()
        self.run_program(TMPFILES, umask=0)
        top = self.room / "it"
        modes = {path: (top / path).stat().st_mode & 0o7777 for path in
                 ("manifest", "tree/srv/new", "tree/srv/new/state", "tree/srv/copy/sub", "tree/srv/copy/sub/b")}
        self.assertEqual(modes, {"manifest": 0o600, "tree/srv/new": 0o700, "tree/srv/new/state": 0o600,
                                 "tree/srv/copy/sub": 0o700, "tree/srv/copy/sub/b": 0o600})

    def test_hard_links_keep_their_bytes(self):
        self.fill()
        os.link(self.room / "it/tree/srv/log", self.room / "log")
        os.link(self.room / "it/tree/srv/conf", self.room / "conf")
        os.link(self.room / "it/manifest", self.room / "manifest")
        self.assertEqual(self.run_program(TMPFILES).returncode, 0)
        self.assertEqual((self.room / "log").read_text(), BEFORE["srv/log"])
        self.assertEqual((self.room / "conf").read_text(), BEFORE["srv/conf"])
        self.assertEqual((self.room / "manifest").read_bytes(), MANIFEST)
        self.assertEqual(self.real(), AFTER)

    def test_links_are_not_followed(self):
        outside = self.room / "outside"
        for place, target, answer in (("tree/srv/to_file", "a", "OddObject"), ("tree/srv/to_folder", "d", "OddObject"),
                                      ("tree/srv/to_nothing", "gone", "OddObject"), ("manifest", "a", "NotPrepared"),
                                      ("manifest.new", "a", "NotPrepared"), ("tree", "d", "NotPrepared")):
            with self.subTest(place):
                self.fill()
                subprocess.run(["rm", "-rf", outside, self.room / "it" / place], check=True)
                (outside / "d").mkdir(parents=True)
                (outside / "a").write_bytes(MANIFEST)
                (self.room / "it" / place).symlink_to(outside / target)
                done = self.run_program(TMPFILES)
                self.assertEqual((done.stdout, done.returncode), (f": bad folder: {answer}\n".encode(), 66))
                self.assertEqual(sorted(path.name for path in outside.rglob("*")), ["a", "d"])
                self.assertEqual((outside / "a").read_bytes(), MANIFEST)

    def test_what_a_kill_left_beside_files_is_taken_away(self):
        self.fill()
        for path in ("", "tree/srv", "tree/run/old", "tree/run/app", "tree/etc"):
            (self.room / "it" / path / ".#tf-").write_text("left")
        self.assertEqual(self.run_program(TMPFILES).returncode, 0)
        self.check_whole(AFTER, SAID)
        self.assertEqual(self.left(), ["it/tree/etc/.#tf-"])  # nothing was written there
        self.assertEqual(self.run_program(SYSUSERS).returncode, 0)
        self.assertEqual(self.left(), [])

    def test_a_large_file_takes_no_memory(self):
        self.fill()
        os.truncate(self.room / "it/tree/srv/log", 3 << 30)
        limit = 512 << 20
        done = self.run_program(TMPFILES, preexec_fn=lambda: resource.setrlimit(resource.RLIMIT_AS, (limit, limit)))
        self.assertEqual((done.returncode, done.stdout), (66, b": bad folder: TooLarge\n"))


@unittest.skipUnless(can_trace(), "strace is not installed, or may not trace")
class Kills(Folder):
    def traced(self, words: tuple, *rules: str) -> tuple[subprocess.CompletedProcess, list[str]]:
        trace = self.room / "trace"
        tracer = ["strace", "-f", "-qq", "-o", str(trace), "-e", "trace=" + ",".join(CALLS)]
        for rule in rules:
            tracer += ["-e", "inject=" + rule]
        done = self.run_program(words, *tracer)
        lines = trace.read_text(errors="replace").splitlines()
        return done, [re.sub(r"^\d+ +", "", line) for line in lines]

    def counts(self, words: tuple) -> tuple[dict, bytes]:
        """How often a complete run does each call, and the manifest that it leaves."""
        self.fill()
        done, calls = self.traced(words)
        self.assertEqual(done.returncode, 0)
        return {call: sum(line.startswith(call + "(") for line in calls) for call in CALLS}, self.manifest()

    def kill_at_each_call(self, words: tuple, texts: dict, whole: dict, said: dict) -> None:
        counts, new = self.counts(words)
        for call, count in counts.items():
            for number in range(1, count + 1):
                with self.subTest(call=call, number=number):
                    self.fill()
                    done, _ = self.traced(words, f"{call}:signal=KILL:when={number}")
                    self.assertNotEqual(done.returncode, 0)
                    self.assertIn(self.manifest(), (MANIFEST, new))
                    found = self.real()
                    for path, wanted in texts.items():
                        self.assertIn(found.get(path), wanted, path)
                    self.assertEqual(self.run_program(words).returncode, 0)
                    self.check_whole(whole, said)

    def test_a_run_is_killed_at_each_call(self):
        texts = {"srv/log": ("first ", "first more"), "srv/conf": (BEFORE["srv/conf"], "fresh"),
                 "srv/new/state": (None, "ready"), "srv/copy/a": (None, "alpha"), "srv/copy/sub/b": (None, "beta"),
                 "srv/link": ("no link yet", None)}
        self.kill_at_each_call(TMPFILES, texts, AFTER, SAID)

    def test_a_run_over_accounts_is_killed_at_each_call(self):
        texts = {path: (BEFORE[path], WITH_USER[path]) for path in ("etc/passwd", "etc/group", "etc/shadow")}
        self.kill_at_each_call(SYSUSERS, texts, WITH_USER, USER_SAID)

    def test_an_error_of_the_machine_leaves_the_old_file(self):
        counts, new = self.counts(TMPFILES)
        for call in ("write", "rename", "unlink", "mkdir", "rmdir", "fsync"):
            for number in range(1, counts[call] + 1):
                with self.subTest(call=call, number=number):
                    self.fill()
                    done, calls = self.traced(TMPFILES, f"{call}:error=EIO:when={number}")
                    self.assertEqual((done.returncode, done.stderr), (77, b""))
                    found = self.real()
                    self.assertIn(found["srv/log"], ("first ", "first more"))
                    self.assertIn(found["srv/conf"], (BEFORE["srv/conf"], "fresh"))
                    self.assertEqual(self.run_program(TMPFILES).returncode, 0)
                    self.check_whole(AFTER, SAID)

    def test_an_interrupted_call_is_tried_again(self):
        counts, _ = self.counts(TMPFILES)
        for call in ("openat", "write", "rename", "unlink", "mkdir", "rmdir", "fsync"):
            with self.subTest(call=call):
                self.fill()
                done, calls = self.traced(TMPFILES, f"{call}:error=EINTR:when=1+2")
                self.assertTrue(any("EINTR" in line for line in calls))
                self.assertEqual((done.returncode, done.stdout), (0, b""))
                self.assertEqual(self.real(), AFTER)

    def test_interrupted_standard_streams_are_tried_again(self):
        tracer = ["strace", "-qq", "-o", "/dev/null", "-e", "trace=read,write",
                  "-e", "inject=read:error=EINTR:when=2+2", "-e", "inject=write:error=EINTR:when=1+2"]
        image = MANIFEST
        done = subprocess.run([*tracer, str(PROGRAM), "systemd-tmpfiles", "--create"], cwd=self.room, input=image,
                              capture_output=True, check=False)
        self.assertEqual((done.returncode, done.stdout), (0, image))

    def test_the_manifest_is_brought_to_the_disk(self):
        self.fill()
        trace = self.room / "trace"
        self.run_program(TMPFILES, "strace", "-qq", "-y", "-o", str(trace), "-e", "trace=write,rename,fsync")
        lines = trace.read_text().splitlines()
        moved = next(i for i, line in enumerate(lines) if re.search(r'rename\(".*it/manifest.new", ".*it/manifest"\) = 0', line))
        made = next(i for i, line in enumerate(lines) if 'it/manifest.new")' in line)
        brought = [i for i, line in enumerate(lines) if re.search(r"fsync\(\d+<.*it/manifest.new>\) += 0", line)]
        directory = [i for i, line in enumerate(lines) if re.search(r"fsync\(\d+<.*/it>\) += 0", line)]
        self.assertEqual((len(brought), len(directory)), (1, 1), lines)
        self.assertLess(made, brought[0])
        self.assertLess(brought[0], moved)
        self.assertLess(moved, directory[0])
