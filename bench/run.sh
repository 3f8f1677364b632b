#!/usr/bin/env bash
# Measures the built program over images of several shapes, in one run on one machine, so that ratios can be compared.
# Each row: the shape, the least seconds of processor time of three runs, what it is compared with and how many times
# that is, and the most memory in MiB. The program is built anew before, and each run has a stack of 256 KiB.
# With a folder as its argument it only makes the images there.
# If PROGRAM is the path of a build of the program, this build is measured, and none is made.
# If BESIDE is the path of another build, each row is measured with both, in turn.
# At the end come rows beside sha256sum and, if it is installed, systemd-tmpfiles (bench/beside.py).
set -eu

top=$(cd "$(dirname "$0")/.." && pwd)
program=${PROGRAM:-$top/crates/provision/out/provision}
version=$(sed -n 's/^tree-image //p' "$top/examples/run-app.image")

# columns PAYLOAD: what stands behind the stamps of an object of the image's version
rest() { [ "$version" = 1 ] && printf -- '- %s' "$1" || printf -- '- - - %s' "$1"; }

# directories PATH..: their lines, all of root and of long ago
directories() { for path; do printf 'd %s 0755 0 0 0,0,0,0 %s\n' "$path" "$(rest -)"; done; }

# head LINES: the lines of an image before /f, with one configuration file of these lines
head_of() {
  printf 'tree-image %s\n' "$version"
  directories / /etc /etc/tmpfiles.d
  printf 'f /etc/tmpfiles.d/a.conf 0644 0 0 0,0,0,0 %s\n' "$(rest "$(printf '%s' "$1" | base64 -w 0)")"
}

# files DIRECTORY COUNT: empty files in a directory
files() {
  awk -v dir="$1" -v count="$2" -v rest="$(rest -)" 'BEGIN {
    for (i = 0; i < count; i++) printf "f %s/f%07d 0644 0 0 0,0,0,0 %s\n", dir, i, rest }'
}

# wide COUNT: so many empty files in one directory
wide() { head_of '# none'; directories /f; files /f "$1"; echo end; }

# spread COUNT: so many empty files, a hundred in each directory
spread() {
  head_of '# none'; directories /f
  awk -v count="$1" -v rest="$(rest -)" 'BEGIN {
    for (i = 0; i < count; i++) {
      if (i % 100 == 0) printf "d /f/d%05d 0755 0 0 0,0,0,0 %s\n", i / 100, rest
      printf "f /f/d%05d/f%07d 0644 0 0 0,0,0,0 %s\n", i / 100, i, rest } }'
  echo end
}

# many COUNT: lines that make so many directories in one
many_lines() { awk -v count="$1" 'BEGIN { for (i = 0; i < count; i++) printf "d /g/d%05d 0755 0 0\n", i }'; }
many() { head_of "$(many_lines "$1")"; directories /g; echo end; }

# among COUNT FILES: the same in a tree of so many files
among() { head_of "$(many_lines "$1")"; directories /f; files /f "$2"; directories /g; echo end; }

# present COUNT: so many lines, each for a directory that is there and gets another mode
present_lines() { awk -v count="$1" 'BEGIN { for (i = 0; i < count; i++) printf "d /g/d%05d 0700 0 0\n", i }'; }
children() { awk -v count="$1" -v rest="$(rest -)" 'BEGIN { for (i = 0; i < count; i++) printf "d /g/d%05d 0755 0 0 0,0,0,0 %s\n", i, rest }'; }
present() { head_of "$(present_lines "$1")"; directories /g; children "$1"; echo end; }

# mixed COUNT: so many lines of ten types over so many directories that are there
mixed_lines() {
  awk -v count="$1" 'BEGIN {
    split("d /g/d%05d 0700|f /g/d%05d/f 0600 - - - text|p /g/d%05d/p 0600|L /g/d%05d/l - - - - /t|c /g/d%05d/c 0600 - - - 1:3|z /g/d%05d 0711|e /g/d%05d 0750|a+ /g/d%05d - - - - u:5:r|t /g/d%05d - - - - user.a=1|h /g/d%05d - - - - +i", line, "|")
    for (i = 0; i < count; i++) printf line[i % 10 + 1] "\n", i }'
}
mixed() { head_of "$(mixed_lines "$1")"; directories /g; children "$1"; echo end; }

# pattern COUNT: one line whose pattern matches a tenth of so many files in one directory
pattern() { head_of 'z /f/f*7 0640'; directories /f; files /f "$1"; echo end; }

# meeting COUNT: so many lines of which any two patterns share paths
meeting_lines() { awk -v count="$1" 'BEGIN { for (i = 0; i < count; i++) printf "r /a/*%05d*\n", 10000 + i * 7919 % 90000 }'; }
meeting() { head_of "$(meeting_lines "$1")"; echo end; }

# deep COUNT: one line that gives all directories a mode, which stand so many one in another
deep() {
  printf 'tree-image %s\n' "$version"; directories /
  awk -v count="$1" -v rest="$(rest -)" 'BEGIN {
    path = "/a"; for (i = 0; i < count; i++) { printf "d %s 0755 0 0 0,0,0,0 %s\n", path, rest; path = path "/a" } }'
  head_of 'Z /a 0700' | tail -n +3; echo end
}

# below COUNT: so many lines, each for a directory in that of the line before
below_lines() { awk -v count="$1" 'BEGIN { for (i = 0; i < count; i++) { path = path "/a"; printf "d %s 0755 0 0\n", path } }'; }
below() { head_of "$(below_lines "$1")"; echo end; }

# levels COUNT: one line of so many levels
deep_path() { awk -v count="$1" 'BEGIN { for (i = 0; i < count; i++) printf "/a" }'; }
levels() { head_of "d $(deep_path "$1") 0755 0 0"; echo end; }

# chain COUNT: leftovers of an earlier run, so many directories one in another, and a line that sweeps them
chain() {
  printf 'tree-image %s\n' "$version"; directories /
  awk -v count="$1" -v rest="$(rest -)" 'BEGIN {
    path = "/.#tf-x"; for (i = 0; i < count; i++) { printf "d %s 0755 0 0 0,0,0,0 %s\n", path, rest; path = path "/a" } }'
  head_of 'd /x 0755 0 0' | tail -n +3; echo end
}

# heap COUNT: leftovers of an earlier run, a directory of so many files
heap() {
  printf 'tree-image %s\n' "$version"; directories /; directories '/.#tf-x'; files '/.#tf-x' "$1"
  head_of 'd /x 0755 0 0' | tail -n +3; echo end
}

# nested LINES COUNT: so many directories one in another below /v, for a phase that takes them away
nested() {
  head_of "$1"
  awk -v count="$2" -v rest="$(rest -)" 'BEGIN {
    path = "/v"; for (i = 0; i < count; i++) { printf "d %s 0755 0 0 0,0,0,0 %s\n", path, rest; path = path "/a" } }'
  echo end
}

# full LINES COUNT: a directory /v of so many empty files, for a phase that takes them away
full() { head_of "$1"; directories /v; files /v "$2"; echo end; }

# accounts USERS MEMBERS: account files of 10,000 entries, and lines for so many new users and members
account_file() { awk -v form="$1" 'BEGIN { for (i = 0; i < 10000; i++) { line = form; gsub(/%/, i, line); print line } }' | base64 -w 0; }
account_lines() {
  awk -v users="$1" -v members="$2" 'BEGIN {
    for (i = 0; i < users; i++) printf "u app%d %d\n", i, 20000 + i
    for (i = 0; i < members; i++) printf "m app%d u%d\n", i, i }'
}
accounts() {
  printf 'tree-image %s\n' "$version"; directories / /etc
  printf 'f /etc/group 0644 0 0 0,0,0,0 %s\n' "$(rest "$(account_file 'u%:x:1%:')")"
  printf 'f /etc/passwd 0644 0 0 0,0,0,0 %s\n' "$(rest "$(account_file 'u%:x:1%:1%::/:/bin/sh')")"
  printf 'f /etc/shadow 0600 0 0 0,0,0,0 %s\n' "$(rest "$(account_file 'u%:*:1::::::')")"
  directories /etc/sysusers.d
  printf 'f /etc/sysusers.d/a.conf 0644 0 0 0,0,0,0 %s\n' "$(rest "$(account_lines "$1" "$2" | base64 -w 0)")"
  echo end
}

# drawn COUNT: the tree of `generate 1 COUNT`, with its drawn lines
drawn() {
  python3 - "$1" "$version" << 'END'
import base64, sys
count, version = int(sys.argv[1]), sys.argv[2]
forms = ["d /data/g{g}/d{i} 0700 0 0", "f /data/g{g}/f{i} 0600 0 0 - text", "L /data/g{g}/l{i} - - - - /data",
         "f+ /data/g{g}/e{i} - - - - more", "z /data/g{g}/e? 0640", "w /data/g{g}/e1* - - - - new",
         "a+ /data/g{g}/e* - - - - u:1:r", "Z /data/g{g} ~0755"]
draw, lines = 1, []
for i in range(count):
    draw = (1103515245 * draw + 12345) % 2**31
    r = draw // 65536
    lines.append(forms[r // 8 % 8].format(g=r % 8, i=i))
nodes = {path: "d" for path in ["/", "/data", "/etc", "/etc/tmpfiles.d", *(f"/data/g{g}" for g in range(8))]}
nodes.update({f"/data/g{i % 8}/e{i}": b"old" for i in range(count)})
nodes["/etc/tmpfiles.d/gen.conf"] = "".join(line + "\n" for line in lines).encode()
empty = "- - " if version != "1" else ""
print(f"tree-image {version}")
for path in sorted(nodes, key=lambda path: path.strip("/").split("/") if path != "/" else []):
    node = nodes[path]
    kind, mode, payload = ("d", "0755", "-") if node == "d" else ("f", "0644", base64.b64encode(node).decode())
    print(f"{kind} {path} {mode} 0 0 0,0,0,0 - {empty}{payload}")
print("end")
END
}

# The program as it is in this checkout: what an earlier run left is taken away before.
build() {
  rm -f "$program"
  (cd "$top/crates/provision" && rt run -- systemd-tmpfiles --create < /dev/null > /dev/null) || true
  [ -x "$program" ] || { echo "bench: the program could not be built" >&2; exit 1; }
}

# The words of the rows that follow.
words='systemd-tmpfiles --create'

folder=${1:-}
only_images=$folder
if [ -z "$folder" ]; then folder=$(mktemp -d); trap 'rm -rf "$folder"' EXIT; [ -n "${PROGRAM:-}" ] || build; fi

# once PROGRAM NAME: the seconds and the KiB of one run over the image of this name
once() {
  (ulimit -s 256; /usr/bin/time -q -f '%U %S %M' -o "$folder/time" "$1" $words < "$folder/$2" > "$folder/out"
   awk '{ print $1 + $2, $3 }' "$folder/time")
}

# least A B: the lesser of two numbers, of which the first may be empty
least() { awk -v a="$1" -v b="$2" 'BEGIN { print (a == "" || b < a) ? b : a }'; }

# measure NAME: the least seconds and the most MiB of three runs over the image of this name
measure() {
  best= other_best=
  for _ in 1 2 3; do
    if [ -n "${BESIDE:-}" ]; then
      read -r seconds other_memory < <(once "$BESIDE" "$1")
      other_best=$(least "$other_best" "$seconds")
    fi
    read -r seconds memory < <(once "$program" "$1")
    best=$(least "$best" "$seconds")
  done
  grep -q '^end$\|^: generated ' "$folder/out" || { echo "bench: no image came out for $1" >&2; exit 1; }
  mebibytes=$((memory / 1024))
}

# row NAME OTHER SHAPE..: makes the image NAME of a shape, and measures it beside the image OTHER, or `-`
row() {
  name=$1 other=$2; shift 2
  "$@" > "$folder/$name"
  [ -z "${only_images:-}" ] || return 0
  measure "$name"
  eval "seconds_$name=$best"
  megabytes=$(awk -v a="$(wc -c < "$folder/$name")" -v b="$(wc -c < "$folder/out")" 'BEGIN { print (a + b) / 1e6 }')
  compared=
  [ "$other" = - ] || eval "compared=\$(awk -v a=$best -v b=\$seconds_$other 'BEGIN { printf \"%.1f times $other\", a / (b > 0 ? b : 0.01) }')"
  beside=
  [ -z "${BESIDE:-}" ] || beside="  beside: $other_best s, $((other_memory / 1024)) MiB"
  awk -v n="$name" -v s="$best" -v m="$megabytes" -v k="$mebibytes" -v c="$compared" -v b="$beside" 'BEGIN {
    printf "%-14s %6.2f s  %7.1f MB  %6.1f MB/s  %5d MiB  %s%s\n", n, s, m, m / (s > 0 ? s : 0.01), k, c, b }'
}

row wide10k     -        wide 10000
row wide100k    wide10k  wide 100000
row wide300k    wide10k  wide 300000
row spread10k   -        spread 10000
row spread300k  spread10k spread 300000
row read2000    -        nested '# none' 2000
row read4000    read2000 nested '# none' 4000
row lines1k     -        many 1000
row lines2k     lines1k  many 2000
row lines10k    lines1k  many 10000
row among1k     wide100k among 1000 100000
row present2k   -        present 2000
row present10k  present2k present 10000
row mixed2k     -        mixed 2000
row mixed10k    mixed2k  mixed 10000
row pattern10k  -        pattern 10000
row pattern100k pattern10k pattern 100000
row deep500     -        deep 500
row deep2000    deep500  deep 2000
row below200    -        below 200
row below400    below200 below 400
row levels500   -        levels 500
row levels2000  levels500 levels 2000
row chain500    -        chain 500
row chain2000   chain500 chain 2000
row heap2000    -        heap 2000
row heap8000    heap2000 heap 8000
row heap32k     heap8000 heap 32000
row heap128k    heap32k  heap 128000
words='systemd-tmpfiles --remove'
row gone500     -        nested 'R /v' 500
row gone2000    gone500  nested 'R /v' 2000
row taken10k    -        full 'R /v' 10000
row taken100k   taken10k full 'R /v' 100000
words='systemd-tmpfiles --clean'
row aged500     -        nested 'd /v - - - 0' 500
row aged2000    aged500  nested 'd /v - - - 0' 2000
row old10k      -        full 'd /v - - - 0' 10000
row old100k     old10k   full 'd /v - - - 0' 100000
words='systemd-tmpfiles --report'
row meeting250  -        meeting 250
row meeting1000 meeting250 meeting 1000
words=systemd-sysusers
row users1000   -        accounts 1000 0
row members1000 users1000 accounts 1000 1000
row members10k members1000 accounts 10000 10000
words='generate 1 500'
row drawn500    -        true
words='generate 1 2000'
row drawn2000   drawn500 true
# Read and written alone, then with what is said of one path.
words=systemd-sysusers
row readdrawn   -        drawn 2000
row readamong   -        among 1000 300000
words='systemd-tmpfiles --explain=/data/g3/e3'
row saiddrawn   readdrawn drawn 2000
words='systemd-tmpfiles --explain=/g/d00500'
row saidamong   readamong among 1000 300000
words='systemd-tmpfiles --create'
row rundrawn    readdrawn drawn 2000
[ -n "$only_images" ] || python3 "$top/bench/beside.py" "$folder" "$program" ${BESIDE:+"$BESIDE"}
