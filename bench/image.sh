#!/usr/bin/env bash
# Measures provision-image over a root of 300 MB with 12,000 members, in one run on one machine, so that the ratios can
# be compared: `tar` that unpacks the root and packs it again, then apply, layer and diff. Each row: the least seconds
# of three runs, elapsed and of processors, how many times the least of tar that is, and the most memory of one process
# in MiB. The aim for apply: at most 2.5 times the seconds of tar, and 150 MiB. The last row: how often `why` asked.
#
#   bench/image.sh [PROGRAM]        crates/provision/out/provision if none is named
set -eu

top=$(cd "$(dirname "$0")/.." && pwd)
program=${1:-$top/crates/provision/out/provision}
[ -x "$program" ] || { echo "bench: $program is missing; build it by rt run in crates/provision" >&2; exit 1; }
room=$(mktemp -d)
trap 'rm -rf "$room"' EXIT

# make_root: files of drawn lengths in 600 directories, with a configuration that makes and changes some
make_root() {
  python3 - "$top/tools" "$room/root.tar" << 'END'
import random
import sys

sys.path.insert(0, sys.argv[1])
from tar_stream import Member, archive_end, member_head, padding

FILES, FOLDERS, BYTES = 11394, 600, 300_000_000
draw = random.Random(1)
lengths = [min(draw.paretovariate(0.9) * 1500, 2e7) for _ in range(FILES)]
scale = BYTES / sum(lengths)
lines = b"".join(b"d /srv/d%03d 0750 7 7\nz /usr/d%03d 0711\nL /srv/l%03d - - - - /usr\n" % (n, n, n) for n in range(100))
users = b"".join(b"u user%02d -\n" % n for n in range(20))
block = draw.randbytes(1 << 20)
with open(sys.argv[2], "wb") as out:
    def add(name, content=None):
        kind, mode = (b"5", 0o755) if content is None else (b"0", 0o644)
        member = Member(name, kind, mode=mode, size=len(content or b""), seconds=1700000000)
        out.write(member_head(member) + (content or b"") + padding(member.size))

    for name in (b"./", b"./etc/", b"./etc/sysusers.d/", b"./etc/tmpfiles.d/"):
        add(name)
    add(b"./etc/sysusers.d/a.conf", users)
    add(b"./etc/tmpfiles.d/a.conf", lines)
    add(b"./usr/")
    for folder in range(FOLDERS):
        add(b"./usr/d%03d/" % folder)
        for number in range(folder, FILES, FOLDERS):
            length = int(lengths[number] * scale)
            add(b"./usr/d%03d/f%05d" % (folder, number), (block * (length // len(block) + 1))[:length])
    out.write(archive_end(out.tell()))
END
}

# measure NAME COMMAND..: a row
measure() {
  local name=$1 least= busy= most=0 ratio
  shift
  for _ in 1 2 3; do
    rm -rf "$room/unpacked" && mkdir "$room/unpacked"
    (cd "$room" && /usr/bin/time -q -f '%e %U %S %M' -o time "$@" > /dev/null 2>&1) || true
    read -r elapsed user kernel memory < "$room/time"
    least=$(awk -v a="$least" -v b="$elapsed" 'BEGIN { print (a == "" || b < a) ? b : a }')
    busy=$(awk -v a="$busy" -v b="$user" -v c="$kernel" 'BEGIN { print (a == "" || b + c < a) ? b + c : a }')
    most=$((memory > most ? memory : most))
  done
  [ -n "${base:-}" ] || { base=$least; base_busy=$busy; }
  ratio=$(awk -v a="$least" -v b="$base" -v c="$busy" -v d="$base_busy" 'BEGIN { printf "%.1f; %.1f", a / b, c / d }')
  printf '%-8s %6.2f s  %6.2f s of processors  %10s times tar  %5d MiB\n' "$name" "$least" "$busy" "$ratio" $((most / 1024))
}

image() { echo python3 "$top/tools/provision_image.py" --program "$program" "$@"; }
now=--now=2026-01-01T00:00:00Z

make_root
members=$(tar -tf "$room/root.tar" | wc -l)
echo "root: $(($(stat -c %s "$room/root.tar") / 1000000)) MB, $members members"
measure tar sh -c 'tar -xf root.tar -C unpacked && tar -C unpacked -cf again.tar .'
measure apply $(image apply $now root.tar new.tar)
measure layer $(image layer $now root.tar layer.tar)
measure diff $(image diff $now root.tar)
[ "$(tar -tf "$room/new.tar" | wc -l)" -ge $((members + 200)) ] || { echo "bench: apply made too little" >&2; exit 1; }

python3 "$top/tools/image_to_tar.py" < "$top/examples/debian.image" > "$room/debian.tar"
for path in /var/cache/manual/page /tmp/report.pdf /tmp/fresh; do
  $(image why --now=2026-02-01T00:00:00Z $path "$room/debian.tar") 2> /dev/null | tail -n 1 | sed "s:^ *:why $path :"
done
