#!/usr/bin/env bash
# Refuses each allocation of some runs of the built program in turn: each run must end as it does with ample memory, or
# with status 71 and nothing written. It needs a C compiler, and is not a part of the gate. It builds the program anew
# before. If PROGRAM is the path of a build of the program, this build is used, and none is made.
set -eu

top=$(cd "$(dirname "$0")/.." && pwd)
program=${PROGRAM:-$top/crates/provision/out/provision}
folder=$(mktemp -d)
trap 'rm -rf "$folder"' EXIT

# An allocator that refuses the call with the number in REFUSED, and writes the number of calls to the file in COUNTED.
cat > "$folder/refusing.c" <<'C'
#include <stdio.h>
#include <stdlib.h>

extern void *__libc_malloc(size_t size);
extern void *__libc_realloc(void *old, size_t size);

static long calls;

static int is_refused(void) {
  const char *refused = getenv("REFUSED");
  return ++calls == (refused ? atol(refused) : 0);
}

void *malloc(size_t size) { return is_refused() ? NULL : __libc_malloc(size); }
void *realloc(void *old, size_t size) { return is_refused() ? NULL : __libc_realloc(old, size); }

__attribute__((destructor)) static void tell(void) {
  const char *name = getenv("COUNTED");
  FILE *file = name ? fopen(name, "w") : NULL;
  if (file) fprintf(file, "%ld\n", calls), fclose(file);
}
C
cc -shared -fPIC -O1 -o "$folder/refusing.so" "$folder/refusing.c"

[ -n "${PROGRAM:-}" ] || (cd "$top/crates/provision" && rt run -- $(cat args) < stdin > "$folder/output" 2> "$folder/said") || { cat "$folder/said"; exit 1; }

# run NAME VARIABLE IMAGE WORDS..: runs the program with the allocator, and prints its status
run() {
  local name=$1 variable=$2 image=$3; shift 3
  local status=0
  env LD_PRELOAD="$folder/refusing.so" "$variable" "$program" "$@" < "$image" > "$folder/$name" || status=$?
  echo "$status"
}

# each IMAGE WORDS..: each allocation of one run refused in turn
each() {
  local wanted calls status refused=0
  wanted=$(run whole "COUNTED=$folder/calls" "$@")
  case $wanted in 0 | 73) ;; *) echo "${*##*/}: status $wanted with ample memory"; exit 1 ;; esac
  calls=$(cat "$folder/calls")
  for ((i = 1; i <= calls; i++)); do
    status=$(run part "REFUSED=$i" "$@")
    if [ "$status" = 71 ] && [ ! -s "$folder/part" ]; then
      refused=$((refused + 1))
    elif [ "$status" != "$wanted" ] || ! cmp -s "$folder/whole" "$folder/part"; then
      echo "${*##*/}: allocation $i of $calls refused: status $status, $(wc -c < "$folder/part") bytes"; exit 1
    fi
  done
  echo "${*##*/}: $calls allocations, $refused runs out of memory, the others whole"
}

# directory PATH MODE STAMPS, file PATH MODE STAMPS TEXT: the line of an object of root
file() {
  local text=-
  [ -z "${4:-}" ] || text=$(printf '%s' "$4" | base64 -w 0)
  printf 'f %s %s 0 0 %s - - - %s\n' "$1" "$2" "$3" "$text"
}
directory() { printf 'd %s %s 0 0 %s - - - -\n' "$1" "$2" "$3"; }
old=0,0,0,0

# image NAME TOOL.D LINES, with objects on standard input that come before and after the configuration
image() {
  { echo 'tree-image 2'; directory / 0755 $old; directory /etc 0755 $old; [ -z "${4:-}" ] || printf '%s\n' "$4"
    directory "/etc/$2" 0755 $old; file "/etc/$2/a.conf" 0644 $old "$3"; cat; echo end; } > "$folder/$1.image"
}

{ directory /src 0750 $old; file /src/k 0600 $old v; directory /src/s 0711 $old; } |
  image copy tmpfiles.d $'C /dst - - - - /src\n'
{ directory /t 1777 $old; file /t/a 0644 135999999999,135999999999,135999999999,135999999999
  file /t/b 0644 135999999999,135999999999,135999999999,136000000000
  directory /t/c 0755 $old; file /t/c/x 0644 $old; directory /t/e 0755 $old; file /t/e/y 0644 0,0,0,1000000000000; } |
  image old tmpfiles.d $'d /t 1777 0 0 10d\n'
image shared tmpfiles.d $'r /a/*b\nr /a/b*\nr /x/[!a]*\nr /x/.h\nR /v\nf /v/w/z\n' < /dev/null
image users sysusers.d $'u app -\ng dev 998\nm app dev\n' "$(
  file /etc/group 0644 $old $'root:x:0:\n+:::\n'
  file /etc/passwd 0644 $old $'root:x:0:0:root:/root:/bin/sh\n# odd\n+::::::\n'
  file /etc/shadow 0600 $old $'root:*:1::::::\n')" < /dev/null

now=--now=1970-01-12T13:46:40Z
each "$top/examples/run-app.image" systemd-tmpfiles --create $now
each "$folder/copy.image" systemd-tmpfiles --create $now
each "$folder/old.image" systemd-tmpfiles --clean $now
each "$folder/shared.image" systemd-tmpfiles --report $now
each "$folder/users.image" systemd-sysusers $now
each "$top/examples/service.image" systemd-tmpfiles --create $now
each "$top/examples/cache.image" systemd-tmpfiles --remove $now
each "$top/examples/cache.image" systemd-tmpfiles --purge $now a.conf
each /dev/null generate 1 3
