#!/usr/bin/env bash
# Measures how long the first shared path of two patterns takes: for patterns of more and more elements, of which each
# question grows as the product of the two numbers, two million questions on patterns whose heads differ, and a hundred
# thousand on patterns of seven elements.
# A line for each: the seconds of processor time, and how many times those of the line before.
set -eu

top=$(cd "$(dirname "$0")/.." && pwd)
program=$top/crates/bench_shared_path/out/bench_shared_path

build() {
  rm -f "$program"
  (cd "$top/crates/bench_shared_path" && rt run -- '/a/*b' '/a/b*' > /dev/null) || true
  [ -x "$program" ] || { echo "bench: the program could not be built" >&2; exit 1; }
}

# pattern COUNT LETTER: a component of so many elements, half of them stars before a letter
pattern() { awk -v count="$1" -v letter="$2" 'BEGIN { printf "/"; for (i = 0; i < count / 2; i++) printf "*%s", letter; print "" }'; }

# seconds PATTERN PATTERN TIMES: of processor time
seconds() {
  /usr/bin/time -q -f '%U %S' -o "$work/time" "$program" "$1" "$2" "$3" > /dev/null
  awk '{ print $1 + $2 }' "$work/time"
}

build
work=$(mktemp -d); trap 'rm -rf "$work"' EXIT
before=
for count in 10 30 100 300 1000; do
  now=$(seconds "$(pattern "$count" a)" "$(pattern "$count" b)" 10)
  awk -v n="$count" -v now="$now" -v before="$before" 'BEGIN {
    printf "%5d elements  %7.2f s for 10 questions  %s\n", n, now, (before > 0 ? sprintf("%.1f times", now / before) : "") }'
  before=$now
done
printf 'two million questions on other heads  %s s\n' "$(seconds '/data/g1/d2' '/data/g2/e?' 2000000)"
printf 'a hundred thousand questions on small machines %s s\n' "$(seconds '/a/*12345*' '/a/*67890*' 100000)"
