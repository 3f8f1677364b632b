"""Trees of the distribution's packages: provision-image beside systemd's own tools.

The packages are fetched by apt-get; without root, a network, apt-get, dpkg-deb
or the tools of systemd the tests are skipped. The two trees are the same but
for what docs/DIFFERENCES.md says of account files: systemd leaves lock and
backup files, makes an absent /etc/gshadow, and puts groups in another order.
"""

import os
import shutil
import subprocess
import tempfile
import unittest
from pathlib import Path

from tests.builder_helper import BuilderCase
from tests.program import PROGRAM

PACKAGES = ("systemd", "dbus-system-bus-common", "man-db", "polkitd", "lighttpd", "screen", "sudo", "colord",
            "postgresql-common", "base-passwd", "base-files")
NEEDED = ("apt-get", "dpkg-deb", "systemd-tmpfiles", "systemd-sysusers", "tar")
QUICK = ("-qq", "-o", "Acquire::http::Timeout=10", "-o", "Acquire::Retries=0", "-o", "APT::Sandbox::User=root")
SITE = 'u colord - "Colour" /var/lib/colord\nu postgres - "" /var/lib/postgresql /bin/bash\nu web -:www-data\nm web adm\n'
LOCKS_AND_BACKUPS = {f"etc/{name}" for name in (".pwd.lock", "passwd-", "group-", "shadow-", "gshadow-", "gshadow")}
ACCOUNTS = ("etc/passwd", "etc/group", "etc/shadow")


def fetched(folder: Path) -> bool:
    """Whether the packages could be fetched into a folder, within a minute."""
    try:
        done = subprocess.run(["apt-get", *QUICK, "download", *PACKAGES], cwd=folder, capture_output=True, timeout=60,
                              check=False)
    except subprocess.TimeoutExpired:
        return False
    return done.returncode == 0


def make_root(base: Path) -> None:
    """Unpack the packages that stand in a folder, give them account files, and make an archive of the whole."""
    root = base / "root"
    root.mkdir()
    for package in sorted(base.glob("*.deb")):
        subprocess.run(["dpkg-deb", "-x", package, root], check=True, timeout=60)
    for name in ("passwd", "group"):
        shutil.copy(root / f"usr/share/base-passwd/{name}.master", root / "etc" / name)
    (root / "etc/machine-id").write_text("0123456789abcdef0123456789abcdef\n")
    (root / "usr/lib/sysusers.d/aa.conf").write_text(SITE)
    subprocess.run(["tar", "--numeric-owner", "--sort=name", "-C", root, "-cf", base / "root.tar", "."], check=True)


@unittest.skipUnless(PROGRAM, "CHECK_PROGRAM names no program")
class Packages(BuilderCase):
    base: Path  # a folder with the root of the packages, unpacked, and its archive

    @classmethod
    def setUpClass(cls) -> None:
        lacking = [program for program in NEEDED if shutil.which(program) is None]
        if lacking or os.geteuid() != 0:
            raise unittest.SkipTest(f"{', '.join(lacking)} is not installed" if lacking else "this is not root")
        cls.base = Path(tempfile.mkdtemp(prefix="provision-packages-"))
        cls.addClassCleanup(shutil.rmtree, cls.base)
        if not fetched(cls.base):
            raise unittest.SkipTest("the packages of the distribution cannot be fetched")
        make_root(cls.base)

    def setUp(self) -> None:
        super().setUp()
        self.program = Path(PROGRAM)
        os.link(self.base / "root.tar", self.room / "root.tar")

    def facts(self) -> list[str]:
        """What systemd takes from the machine and not from the root."""
        boot = Path("/proc/sys/kernel/random/boot_id").read_text().strip().replace("-", "")
        return ["--fact", f"b={boot}", "--fact", f"v={os.uname().release}", "--fact", f"H={os.uname().nodename}"]

    def objects(self, name: str) -> dict[str, tuple]:
        """All objects below a directory but lock and backup files: kind, mode, owners, target, device, attributes."""
        top, found = self.room / name, {}
        for path in [top, *top.rglob("*")]:
            it, at = path.lstat(), str(path.relative_to(top))
            is_link = path.is_symlink()
            attributes = {} if is_link else {key: os.getxattr(path, key) for key in os.listxattr(path)}
            content = path.read_bytes() if path.is_file() and not is_link and at not in ACCOUNTS else b""
            found[at] = (oct(it.st_mode), it.st_uid, it.st_gid, it.st_rdev, os.readlink(path) if is_link else "",
                         attributes, content)
        return {at: it for at, it in found.items() if at not in LOCKS_AND_BACKUPS}

    def entries(self, name: str) -> dict[str, list[str]]:
        """The entries of the account files; the day of a shadow entry is left out."""
        found = {}
        for path in ACCOUNTS:
            lines = (self.room / name / path).read_text().splitlines() if (self.room / name / path).exists() else []
            found[path] = sorted(":".join(line.split(":")[:2] + line.split(":")[3:]) if path == "etc/shadow" else line
                                 for line in lines)
        return found

    def unpacked(self, archive: str, name: str) -> None:
        (self.room / name).mkdir()
        self.sh(f"tar --numeric-owner --xattrs --xattrs-include='*' --warning=no-unknown-keyword -xpf {archive} -C {name}")

    def test_beside_systemd(self):
        self.sh(f"cp -a {self.base}/root theirs; systemd-sysusers --root=$PWD/theirs; "
                "systemd-tmpfiles --root=$PWD/theirs --create --boot || test $? = 65 || test $? = 73")
        it = self.run_it("apply", "--ids-from", "theirs", *self.facts(), "root.tar", "new.tar")
        self.assertEqual(it.returncode, 0, it.stderr.decode())
        self.unpacked("new.tar", "ours")
        ours, theirs = self.objects("ours"), self.objects("theirs")
        self.assertEqual(sorted(ours.keys() ^ theirs.keys()), [])
        for path, thing in theirs.items():
            self.assertEqual(ours[path], thing, path)
        self.assertEqual(self.entries("ours"), self.entries("theirs"))
        self.assertGreater(len(theirs), 1000)

    def test_the_layer(self):
        self.done("apply", *self.facts(), "root.tar", "new.tar", "--now=2026-01-01T00:00:00Z")
        self.done("layer", *self.facts(), "root.tar", "layer.tar", "--now=2026-01-01T00:00:00Z")
        self.need("umoci")
        self.unpacked("new.tar", "wanted")
        self.sh("umoci init --layout image; umoci new --image image:a; umoci raw add-layer --image image:a root.tar;"
                "umoci raw add-layer --image image:a layer.tar; umoci unpack --image image:a bundle")
        self.assertEqual(self.objects("bundle/rootfs"), self.objects("wanted"))
        self.assertEqual(self.entries("bundle/rootfs"), self.entries("wanted"))
        self.need("skopeo")
        self.sh("skopeo copy -q --insecure-policy oci:image:a oci-archive:image.tar")


if __name__ == "__main__":
    unittest.main()
