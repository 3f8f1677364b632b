#!/bin/sh
# Installs `provision`, `provision-image`, `tar_to_image` and `image_to_tar`, their manual pages and documents.
#
#   PREFIX=/usr/local DESTDIR= tools/install.sh [PROGRAM]
#
# PROGRAM is a `provision` that is built already. If none is named, that of crates/provision/out is taken, and if there
# is none, rt proves and builds it. What is missing is named, and then nothing is installed.
# Status: 0 installed, 1 something is missing.
set -eu

top=$(cd "$(dirname "$0")/.." && pwd)
prefix=${DESTDIR:-}${PREFIX:-/usr/local}
program=${1:-$top/crates/provision/out/provision}

tools="tar_to_image image_to_tar provision_image"
modules="hard_links.py tar_stream.py tree_folder.py tree_image.py"
pages="provision.1 provision-image.1 tar_to_image.1 image_to_tar.1 tree-image.5"
documents="BUILDING DIFFERENCES FORMAT GLOSSARY MESSAGES PROMISES USAGE"

# build: proves and builds the program, if none is there
build() {
  [ ! -f "$program" ] || return 0
  command -v rt > /dev/null || return 0
  cat >&2 << 'END'
install: the program is not built yet, so it is proved and built now. The first time this takes one to two hours of
install: processor time, up to an hour on four cores, with 8 GB of memory and 10 GB of disk. What is proved is kept.
install: If you have a program that is built already: tools/install.sh PROGRAM
END
  (cd "$top/crates/provision" && rt run > /dev/null) || echo "install: rt run failed" >&2
}

# check: names what is missing
check() {
  missing=0
  for file in "$program" CHANGELOG.md completions/provision-image.bash \
    $(for it in $tools; do echo "tools/$it.py"; done) $(for it in $modules; do echo "tools/$it"; done) \
    tools/builder/cli.py $(for it in $pages; do echo "man/$it"; done) \
    $(for it in $documents; do echo "docs/$it.md"; done); do
    case $file in /*) ;; *) file=$top/$file ;; esac
    [ -f "$file" ] || { echo "install: $file is missing" >&2; missing=1; }
  done
  [ "$missing" = 0 ]
}

# install_programs: the program, and the tools with their modules, which find each other by their place
install_programs() {
  library=$prefix/lib/provision
  install -d "$prefix/bin" "$library/builder"
  install -m 755 "$program" "$prefix/bin/provision"
  for tool in $tools; do
    install -m 755 "$top/tools/$tool.py" "$library"
  done
  for module in $modules; do
    install -m 644 "$top/tools/$module" "$library"
  done
  install -m 644 "$top"/tools/builder/*.py "$library/builder"
  install -m 644 "$top/CHANGELOG.md" "$library"
  ln -sf ../lib/provision/tar_to_image.py "$prefix/bin/tar_to_image"
  ln -sf ../lib/provision/image_to_tar.py "$prefix/bin/image_to_tar"
  ln -sf ../lib/provision/provision_image.py "$prefix/bin/provision-image"
}

# install_pages: manual pages, and the completion of the shell
install_pages() {
  completions=$prefix/share/bash-completion/completions
  install -d "$prefix/share/man/man1" "$prefix/share/man/man5" "$completions"
  for page in $pages; do
    install -m 644 "$top/man/$page" "$prefix/share/man/man${page##*.}"
  done
  install -m 644 "$top/completions/provision-image.bash" "$completions/provision-image"
}

# with_links FILE: a document whose links lead to what is installed; links to other files become plain text
with_links() {
  sed -E -e 's,\[([^]]*)\]\((\.\./)?(docs/)?(README|CONTRIBUTING|CHANGELOG|ARCHITECTURE|BELIEVE|DECISIONS)\.md[^)]*\),\1,g' \
    -e 's,\[([^]]*)\]\(\.\./crates/[^)]*\),\1,g' -e 's,\]\(\.\./examples/,](examples/,g' \
    -e 's,\]\(\.\./docs/,](../,g' -e 's,\]\(\.\./man/([a-z_-]+\.)([0-9])\),](../../man/man\2/\1\2),g' "$1"
}

# install_documents: documents and examples
install_documents() {
  target=$prefix/share/doc/provision
  install -d "$target"
  for document in $documents; do
    with_links "$top/docs/$document.md" > "$target/$document.md"
    chmod 644 "$target/$document.md"
  done
  install -m 644 "$top/CHANGELOG.md" "$target"
  (cd "$top" && find examples -type f) | while read -r file; do
    install -d "$target/$(dirname "$file")"
    install -m 644 "$top/$file" "$target/$file"
  done
  if [ -f "$target/examples/README.md" ]; then
    with_links "$top/examples/README.md" > "$target/examples/README.md"
  fi
}

[ $# -gt 0 ] || build
check || exit 1
install_programs
install_pages
install_documents
echo "install: provision, provision-image, tar_to_image and image_to_tar in $prefix/bin,"
echo "install: manual pages in $prefix/share/man, documents in $prefix/share/doc/provision"
