#!/usr/bin/env python3
"""Measures the built program beside other programs, in turn, so that ratios can be compared.

    python3 bench/beside.py IMAGES PROGRAM [OTHER_BUILD]

IMAGES is a folder with the images of bench/run.sh, which calls this script at its end.

Each row: the shape, then for each program the least seconds of processor time of its runs, and how many times the
program's own time that is. sha256sum reads the image and what the program writes. systemd-tmpfiles, if it is installed,
runs with --root over a folder with the same content. OTHER_BUILD is another build of the program.
"""
import base64
import os
import pathlib
import resource
import shutil
import subprocess
import sys
import tempfile

TOP = pathlib.Path(__file__).resolve().parent.parent
RUNS = 15


def wide(count):
    """So many empty files in one directory, with timestamps of 12 digits."""
    stamps = ",".join(["100000000000"] * 4)
    files = (f"f /f/f{i:07d} 0644 0 0 {stamps} - - - -" for i in range(count))
    return "\n".join(["tree-image 2", *(f"d {path} 0755 0 0 0,0,0,0 - - - -" for path in ("/", "/f")), *files, "end", ""])


def make(image, root):
    """Makes the directories and files of an image in a new folder."""
    shutil.rmtree(root, ignore_errors=True)
    root.mkdir(parents=True)
    for line in image.read_text().splitlines():
        fields = line.split()
        if fields[0] == "d":
            os.makedirs(f"{root}{fields[1]}", exist_ok=True)
        elif fields[0] == "f":
            pathlib.Path(f"{root}{fields[1]}").write_bytes(b"" if fields[-1] == "-" else base64.b64decode(fields[-1]))


def seconds(words, image, output=os.devnull):
    """The processor seconds of one run, and its most KiB."""
    with open(image, "rb") as given, open(output, "wb") as taken:
        process = subprocess.Popen(words, stdin=given, stdout=taken, stderr=subprocess.DEVNULL)
        _, _, used = os.wait4(process.pid, 0)
    return used.ru_utime + used.ru_stime, used.ru_maxrss


def show(shape, took, memory, size):
    """Prints a row: the least seconds of each program, and ratios."""
    own = min(took["provision"])
    parts = [f"{name} {min(all_runs):.4f} s ({min(all_runs) / own:.2f} times)" for name, all_runs in took.items()]
    much = f"; {memory / 1024:.0f} MiB, {memory * 1024 / size:.2f} times the image's bytes" if size > 1_000_000 else ""
    print(f"{shape:12} {', '.join(parts)}{much}", flush=True)


def measure(shape, image, builds, folder):
    """Measures one image with each build, and beside sha256sum or systemd-tmpfiles."""
    took = {name: [] for name in builds}
    memory, output = 0, folder / "out"
    system = shutil.which("systemd-tmpfiles") if shape != "stamped300k" else None
    for _ in range(RUNS):
        for name, program in builds.items():
            time, used = seconds([program, "systemd-tmpfiles", "--create"], image, output)
            took[name].append(time)
            memory = used if name == "provision" else memory
        if shape == "stamped300k":
            took.setdefault("sha256sum", []).append(seconds(["sha256sum", image, output], os.devnull)[0])
        elif system:
            make(image, folder / "root")
            took.setdefault("systemd-tmpfiles", []).append(seconds([system, "--create", f"--root={folder / 'root'}"], os.devnull)[0])
    show(shape, took, memory, image.stat().st_size)


def main():
    images = pathlib.Path(sys.argv[1])
    builds = dict(zip(("provision", "other build"), sys.argv[2:4]))
    home = "/dev/shm" if os.access("/dev/shm", os.W_OK) else None
    with tempfile.TemporaryDirectory(dir=home) as name:
        folder = pathlib.Path(name)
        for shape, image in (("lines2k", images / "lines2k"), ("rundrawn", images / "rundrawn"), ("debian", TOP / "examples/debian.image")):
            measure(shape, image, builds, folder)
        (folder / "stamped300k").write_text(wide(300_000))
        measure("stamped300k", folder / "stamped300k", builds, folder)


main()
