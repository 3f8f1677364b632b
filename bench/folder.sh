#!/usr/bin/env bash
# Runs the built program on folders of this machine (`--root=FOLDER`). It is no part of the gate.
#
#   bench/folder.sh [PROGRAM [PART..]]      crates/provision/out/provision, and all parts, where none is named
#
#   answers  what it says of folders that it cannot run on, or not to the end, and what it leaves there; root runs it as
#            nobody, so that permissions count. For a short time there are a million small files
#   cost     a run on 100,000 files with a manifest beside a plain loop over the same host (crates/bench_folder)
#   beside   where systemd-tmpfiles is installed and this is root: in which paths, kinds, links and contents its trees differ
#            from what the program leaves, for each example
#
# Status: 0 all as expected, 1 something is otherwise.
set -eu

top=$(cd "$(dirname "$0")/.." && pwd)
built=$(realpath "${1:-$top/crates/provision/out/provision}")
[ -x "$built" ] || { echo "folder: $built is not built" >&2; exit 1; }
[ $# -lt 2 ] && parts="answers cost beside" || parts="${*:2}"
room=$(mktemp -d)
cleared() { chattr -f -R -i -a "$@" 2> /dev/null || true; chmod -R u+rwx "$@" 2> /dev/null || true; rm -rf "$@"; }
trap 'cleared "$room"' EXIT
chmod 711 "$room"
program=$room/provision
install -m 755 "$built" "$program"
now=--now=1970-01-12T13:46:40Z
odd=0
otherwise() { echo "OTHERWISE: $1"; odd=1; }
is_root() { [ "$(id -u)" = 0 ]; }

# ---- what it answers

user=()
is_root && user=(setpriv --reuid=65534 --regid=65534 --clear-groups)
own() { if is_root; then chown -R 65534:65534 "$@"; fi; }

# fresh: a folder `it` with one line of configuration
fresh() {
  cleared it
  mkdir -p it/tree/etc/tmpfiles.d
  echo 'd /run/app 0750 7 8' > it/tree/etc/tmpfiles.d/a.conf
  own it
}

# run WORD..: the program on the folder `it`; $room_for is the largest file that may be written, in KiB
room_for=unlimited
run() {
  (trap '' XFSZ; ulimit -f "$room_for"
   exec "${user[@]}" "$program" systemd-tmpfiles --create "$now" --root=it "$@" < /dev/null 2> ../complaints)
}

# answers NAME STATUS TEXT [WORD..]: the program's answer to the folder `it`
answers() {
  local name=$1 status=$2 text=$3 found=0 said; shift 3
  said=$(run "$@") || found=$?
  if [ "$found" = "$status" ] && [ "$said" = "$text" ] && [ ! -s ../complaints ]; then
    echo "as expected: $name"
  else
    otherwise "$name: status $found, said: $said $(head -c 300 ../complaints)"
  fi
}

# refused NAME STATUS TEXT [WORD..]: the same, and all in the folder is as before
state() { find it -printf '%y %m %p %s %l %T@\n' 2> /dev/null | sort; }
refused() {
  state > ../before
  answers "$@"
  state | cmp -s - ../before || otherwise "$1: the folder has changed"
}

# is_done NAME: the directory is there, and the manifest says of whom it is
is_done() {
  if [ ! -d it/tree/run/app ] || ! grep -q '^d /run/app 0750 7 8 ' it/manifest || [ -e it/manifest.new ]; then
    otherwise "$1: what a run leaves"
  fi
}

# ends NAME STATUS TEXT [WORD..]: so a run ends here; after it a run by an ordinary user who may do all ends well
ends() {
  answers "$@"
  room_for=unlimited
  chmod -R u+rwx it
  answers "$1, and then whole" 0 ""
  is_done "$1"
}

# objects COUNT: so many objects below the tree, those of the configuration included
objects() {
  python3 - "$1" << 'END'
import os, sys
left = int(sys.argv[1]) - 3
while left > 0:
    directory = f"it/tree/d{left:07}"
    os.mkdir(directory)
    left -= 1
    for number in range(min(left, 1000)):
        os.close(os.open(f"{directory}/f{number:03}", os.O_CREAT | os.O_WRONLY))
    left -= min(left, 1000)
END
  own it
}

# lines COUNT: lines that make so many directories of root with files, and link to them
lines() {
  awk -v count="$1" 'BEGIN { for (i = 0; i < count; i++)
    printf "d /data/d%d 0750 0 8\nf /data/d%d/f 0640 7 8 - text\nL /data/l%d - - - - d%d\n", i, i, i, i }'
}

# left: what a run has left, without stamps, and without the file that a write makes first, which a kill may leave
left() {
  find it/tree ! -name '.#tf-' -printf '%y %p\n' | sort
  find it/tree -type f ! -name '.#tf-' -exec sha256sum {} + | sort
  cut -d' ' -f1-5,7- it/manifest | grep -v '/\.#tf- '
}

check_answers() {
  fresh; answers "a run" 0 ""; is_done "a run"
  answers "the same once more" 0 ""; is_done "the same once more"
  rm it/manifest; answers "no manifest" 0 ""; is_done "no manifest"
  fresh; echo left > it/manifest.new; own it; answers "an old manifest.new" 0 ""; is_done "an old manifest.new"
  fresh; answers "stopped before the first step" 75 ": stopped after 0 steps" --stop-after=0
  ends "stopped after three steps" 75 ": stopped after 3 steps" --stop-after=3

  # folders that cannot be run on: all stays
  rm -rf it; refused "no folder" 66 ": bad folder: NotPrepared"
  mkdir it; refused "no tree" 66 ": bad folder: NotPrepared"
  echo x > it/tree; refused "tree is a file" 66 ": bad folder: NotPrepared"
  rm -rf it; echo x > it; refused "a file in place of the folder" 66 ": bad folder: NotPrepared"
  fresh; mv it other; ln -s other it; refused "a link in place of the folder" 66 ": bad folder: NotPrepared"; rm -rf it other
  fresh; mv it/tree it/other; ln -s other it/tree; refused "tree is a link" 66 ": bad folder: NotPrepared"
  fresh; mkdir it/manifest; refused "manifest is a directory" 66 ": bad folder: NotPrepared"
  fresh; echo x > it/x; ln -s x it/manifest; refused "manifest is a link" 66 ": bad folder: NotPrepared"
  fresh; mkdir it/manifest.new; refused "manifest.new is a directory" 66 ": bad folder: NotPrepared"
  fresh; ln -s nothing it/manifest.new; refused "manifest.new is a link" 66 ": bad folder: NotPrepared"
  fresh; echo x > it/manifest; refused "a manifest that is no image" 66 ": bad folder: BadManifest"
  fresh; : > it/manifest; refused "an empty manifest" 66 ": bad folder: BadManifest"
  fresh; printf 'tree-image 2\nd / 0755 0 0 0,0,0,0 - - - -\n' > it/manifest
  refused "a manifest without its end" 66 ": bad folder: BadManifest"
  fresh; ln -s / it/tree/way; refused "a link below tree" 66 ": bad folder: OddObject"
  fresh; mkfifo it/tree/etc/pipe; refused "a FIFO below tree" 66 ": bad folder: OddObject"
  fresh; (cd it/tree && python3 -c 'import socket; socket.socket(socket.AF_UNIX).bind("s")')
  refused "a socket below tree" 66 ": bad folder: OddObject"
  if is_root && fresh && mknod it/tree/null c 1 3 2> /dev/null; then
    refused "a device below tree" 66 ": bad folder: OddObject"
  fi
  fresh; : > "it/tree/$(printf '\377')"; refused "a name that is not UTF-8" 77 ""
  fresh; deep=$(printf 'd%.0s' {1..250})
  (cd it/tree && for _ in {1..20}; do mkdir "$deep" && cd "$deep"; done); own it
  refused "a path that is too long for the machine" 77 ""

  # a name with a line feed is a name
  fresh; echo x > it/tree/$'a\nb'; own it; answers "a name with a line feed" 0 ""; is_done "a name with a line feed"
  grep -q '^f /a\\x0ab 0644 0 0 ' it/manifest || otherwise "a name with a line feed: the manifest"
  [ "$(cat it/tree/$'a\nb')" = x ] || otherwise "a name with a line feed: its bytes"

  # as many objects and bytes as a run takes, and more
  fresh; truncate -s $((67108864 - 20)) it/tree/large; own it; answers "67,108,864 bytes" 0 ""; is_done "67,108,864 bytes"
  fresh; truncate -s $((67108865 - 20)) it/tree/large; own it; refused "a byte more" 66 ": bad folder: TooLarge"
  fresh; objects 1000000; answers "1,000,000 objects" 0 ""; is_done "1,000,000 objects"
  fresh; objects 1000001; refused "an object more" 66 ": bad folder: TooLarge"

  # what may not be read: all stays; what may not be written: what was done is there, and a later run ends well
  fresh; chmod 0 it; refused "a folder that may not be read" 77 ""
  fresh; chmod 0 it/tree; refused "a tree that may not be read" 77 ""
  fresh; chmod 0 it/tree/etc; refused "a directory that may not be read" 77 ""
  fresh; chmod 0 it/tree/etc/tmpfiles.d/a.conf; refused "a file that may not be read" 77 ""
  fresh; echo x > it/manifest; own it; chmod 0 it/manifest; refused "a manifest that may not be read" 77 ""
  fresh; chmod 0500 it/tree; ends "a tree that may not be written" 77 ""
  fresh; mkdir it/tree/run; own it; chmod 0500 it/tree/run; ends "a directory that may not be written" 77 ""
  fresh; chmod 0500 it; ends "a folder that may not be written" 77 ""
  fresh; echo x > it/manifest.new; own it; chmod 0400 it/manifest.new; answers "a manifest.new that may not be written" 0 ""; is_done "it is replaced"
  fresh; mkdir it/.#tf-; answers "a directory that has the name of the file beside" 77 ""
  rmdir it/.#tf-; answers "it is gone" 0 ""; is_done "it is gone"
  fresh; answers "a manifest that may not be written" 0 ""; chmod 0400 it/manifest; echo 'd /a' >> it/tree/etc/tmpfiles.d/a.conf
  answers "it is replaced" 0 ""; grep -q '^d /a 0755 ' it/manifest || otherwise "it is replaced: by what"

  # no room: the manifest that was there stays
  fresh; room_for=0; ends "no room for a manifest" 77 ""
  cp it/manifest ../old; echo 'f /a 0640 7 8 - text' >> it/tree/etc/tmpfiles.d/a.conf; room_for=0
  answers "no room for a file" 77 ""; room_for=unlimited
  cmp -s it/manifest ../old || otherwise "no room for a file: the manifest has changed"
  [ ! -e it/tree/a ] || otherwise "no room for a file: it is there"
  answers "no room for a file, and then whole" 0 ""
  [ "$(cat it/tree/a)" = text ] && grep -q '^f /a 0640 7 8 ' it/manifest || otherwise "no room for a file, and then whole"

  # with the manifest the owner is lost, and what is root's in a directory of another owner is refused
  fresh; echo 'f /run/app/f 0640 7 8' >> it/tree/etc/tmpfiles.d/a.conf; room_for=0
  answers "no room for a manifest, and a file in a directory of a user" 77 ""; room_for=unlimited
  answers "and then whole: what is in it is root's" 73 ": /etc/tmpfiles.d/a.conf:2: /run/app/f refused at /run/app/f: unsafe owner"

  # runs that are killed somewhere, and then one that is not
  local killed=0 part after begun took
  fresh; lines 1000 >> it/tree/etc/tmpfiles.d/a.conf
  begun=$(date +%s%N); answers "3,000 lines" 0 ""; took=$(($(date +%s%N) - begun))
  left > ../whole
  for part in 1 2 3 4 5 6 7 8 9 10; do
    fresh; lines 1000 >> it/tree/etc/tmpfiles.d/a.conf
    after=$(awk -v took="$took" -v part="$part" 'BEGIN { printf "%.4f", took / 1e9 * part / 11 }')
    timeout --foreground -s KILL "$after" "${user[@]}" "$program" systemd-tmpfiles --create "$now" --root=it < /dev/null > /dev/null 2>&1 || killed=$((killed + 1))
    run > /dev/null || otherwise "killed after $after s, and then whole: status $?"
    left | cmp -s - ../whole || otherwise "killed after $after s, and then whole: something else is left"
  done
  echo "of ten runs $killed were killed; then whole, each left what one whole run leaves"
}

# ---- what it costs

check_cost() {
  mkdir -p it/tree/etc/tmpfiles.d
  echo 'd /run/app' > it/tree/etc/tmpfiles.d/a.conf
  python3 - << 'END'
import os
for directory in range(100):
    os.mkdir(f"it/tree/d{directory:02}")
    for number in range(1000):
        with open(f"it/tree/d{directory:02}/f{number:03}", "w") as file:
            file.write("x" * 100)
END
  "$program" systemd-tmpfiles --create --root=it < /dev/null > /dev/null
  local loop=$top/crates/bench_folder/out/bench_folder
  [ -x "$loop" ] || (cd "$top/crates/bench_folder" && rt run > /dev/null 2>&1) || true
  [ -x "$loop" ] || { echo "folder: $loop cannot be built: no cost is measured"; return 0; }
  local run_clock run_work loop_clock loop_work
  for _ in 1 2 3 4 5 6 7 8 9 10 11 12; do
    spent loop.times "$loop"
    spent run.times "$program" systemd-tmpfiles --create --root=it
  done
  read -r loop_clock loop_work < <(least loop.times)
  read -r run_clock run_work < <(least run.times)
  awk -v a="$run_clock" -v b="$loop_clock" -v c="$run_work" -v d="$loop_work" 'BEGIN {
    printf "100,000 files: %.2f s by the clock, %.2f s of processor time; a plain loop over them and the manifest %.2f and %.2f s: %.2f and %.2f times\n", a, c, b, d, a / b, c / d
    exit a > 1.5 * b }' || otherwise "a run takes more than 1.5 times what the loop takes"
}

# spent FILE COMMAND..: adds the seconds of a run to a file, by the clock and of processor time
spent() { /usr/bin/time -a -o "$1" -f '%e %U %S' "${@:2}" < /dev/null > /dev/null 2>&1; }

# least FILE: the least of them
least() { awk '{ work = $2 + $3; if (NR == 1 || $1 < a) a = $1; if (NR == 1 || work < b) b = work } END { print a, b }' "$1"; }

# ---- beside systemd-tmpfiles

# unpack FOLDER: the archive `it.tar` as real objects
unpack() {
  cleared "$1"; mkdir "$1"
  tar -C "$1" --numeric-owner --acls --xattrs --xattrs-include='*' -xpf it.tar 2> /dev/null || true
}

# listed FOLDER: paths, kinds, links, and contents
listed() { (cd "$1" && find . -printf '%y %p %l\n' && find . -type f -exec sha256sum {} +) | sort; }

# of_machine: the facts that systemd-tmpfiles takes of this machine, and those of the image that it takes of the tree
of_machine() {
  echo "--fact b=$(tr -d - < /proc/sys/kernel/random/boot_id) --fact v=$(uname -r) --fact H=$(uname -n) --fact l=$(uname -n | cut -d. -f1) --fact a=$(uname -m | tr _ -)"
  sed -n 's/^fact \([mow]\) \(.*\)/--fact \1=\2/p' "$1"
}

# compare IMAGE WORD..: what the program leaves in a folder, and what systemd-tmpfiles leaves in the same tree
compare() {
  local image=$1 name status=0; shift
  name="$(basename "$image"), $*"
  rm -rf it
  "$program" systemd-sysusers "$now" < "$image" | "$top/tools/image_to_tar.py" > it.tar 2> said
  # shellcheck disable=SC2046 # no fact has a blank
  "$top/tools/tar_to_image.py" --folder=it $(of_machine "$image") it.tar 2>> said
  unpack theirs
  { systemd-tmpfiles "$@" --root="$PWD/theirs" 2>&1 || true; } | sed "s:$PWD/theirs::g" > said.theirs
  "$program" systemd-tmpfiles "$@" --root=it < /dev/null > said || status=$?
  "$top/tools/image_to_tar.py" --folder=it > it.tar
  unpack ours
  listed ours > ours.list; listed theirs > theirs.list
  if cmp -s ours.list theirs.list; then
    echo "$name: the same $(grep -c '^[a-z] ' ours.list) objects (status $status)"
  else
    echo "$name: $(diff ours.list theirs.list | grep -c '^[<>]') lines differ (status $status; < the program, > systemd-tmpfiles)"
    diff ours.list theirs.list | grep '^[<>]' | sed 's/^/  /' | head -n 12
    sed 's/^/  the program: /' said | head -n 4
    sed 's/^/  systemd-tmpfiles: /' said.theirs | head -n 4
  fi
}

check_beside() {
  if ! is_root || ! command -v systemd-tmpfiles > /dev/null; then
    echo "systemd-tmpfiles is not installed, or this is not root: no comparison"
    return
  fi
  systemd-tmpfiles --version | head -n 1
  local image
  for image in "$top"/examples/*.image; do
    compare "$image" --create --boot
    compare "$image" --remove --boot
  done
}

for part in $parts; do
  mkdir "$room/$part"
  own "$room/$part"
  cd "$room/$part"
  "check_$part"
done
exit $odd
