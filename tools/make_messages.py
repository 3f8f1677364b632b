#!/usr/bin/env python3
"""Makes docs/MESSAGES.md from the catalogue of messages (tools/builder/catalogue.py).

    make_messages.py            writes docs/MESSAGES.md
    make_messages.py --check    status 1 if docs/MESSAGES.md is not what the catalogue gives
"""

import argparse
import sys
from pathlib import Path

sys.path.insert(0, str(Path(__file__).resolve().parent))

from builder.catalogue import CATALOGUE  # noqa: E402
from builder.catalogue_form import SEVERITIES, Message, Section  # noqa: E402

DOCUMENT = Path(__file__).resolve().parent.parent / "docs/MESSAGES.md"

HEAD = """# Messages, and what to do about each

<!-- Made by tools/make_messages.py from tools/builder/catalogue*.py: change those, not this file. -->

`provision` prints its messages before the image. Each is one line that begins with a colon and a space, so
`provision .. | grep '^: '` shows them. [`provision-image`](BUILDING.md#messages) shows the same messages as sentences,
with the line of the configuration file, a mark below the field, and what to do.

In the messages FILE is a configuration file of the image and N the number of its line. PATH and PLACE are paths, and
NAME is a user or a group. Blanks and bytes that are not printable ASCII are escaped in all of them
([how](FORMAT.md#the-whole-text)). KIND is `directory`, `file`, `link`, `fifo`, `character device` or `block device`.

The messages come in this order:

1. about configuration files, and about lines as they are read;
2. about duplicates;
3. about the lines of each phase, in the order in which they are carried out;
4. whether the run was stopped. A removing or purging phase gives its messages only at its end. If it was stopped, they
   are missing.

Below, each message comes with its level. If it changes the [exit status](USAGE.md#exit-statuses) of `provision`, the
status comes next. Then comes its code in the [JSON](BUILDING.md#as-json) of `provision-image`, unless the message itself
ends with the code. After this comes the sentence that `provision-image` shows, in which FIELD is the marked part of the
line.

"""


def level_rows() -> str:
    """The table of levels."""
    rows = [f"{name} | {meaning}" for name, meaning in SEVERITIES.items()]
    return "level | meaning\n---|---\n" + "\n".join(rows) + "\n"


def level(entry: Message) -> str:
    """The level of a message with the status of the program, and its code if its form does not end with that."""
    named = entry.form.endswith(f" {entry.code}")
    return entry.severity + (f", status {entry.status}" if entry.status else "") + ("" if named else f", `{entry.code}`")


def shown(text: str) -> str:
    """A text of the catalogue in which names in capitals stand for values."""
    return text.format_map(_Capitals())


class _Capitals(dict):
    """Each name stands for itself in capitals."""

    def __missing__(self, name: str) -> str:
        return name.upper()


def entry_text(entry: Message) -> str:
    """A message with its level, its meaning and what to do."""
    form = f"`{entry.form}`" + (f" on a line with {entry.when}" if entry.when else "")
    advice = f" *What to do:* {quoted(shown(entry.advice))}" if entry.advice else ""
    meaning = entry.meaning.replace("{{}}", "{}")
    return f"- **{form}** ({level(entry)}), “{quoted(shown(entry.text))}”: {meaning}{advice}\n"


def quoted(text: str) -> str:
    """Advice with what Markdown would read as marks in its own form."""
    return text.replace("\\", "\\\\").replace("*", "\\*").replace("_", "\\_").replace("[", "\\[").replace("]", "\\]")


def section_text(section: Section) -> str:
    """A section of the document."""
    return f"## {section.title}\n\n{section.intro}\n\n" + "".join(map(entry_text, section.messages))


def document() -> str:
    """The text of docs/MESSAGES.md."""
    return HEAD + level_rows() + "\n" + "\n".join(map(section_text, CATALOGUE.sections))


def main(words: list[str]) -> int:
    parser = argparse.ArgumentParser(description="Makes docs/MESSAGES.md from the catalogue of messages.")
    parser.add_argument("--check", action="store_true", help="compare, and write nothing")
    if not parser.parse_args(words).check:
        DOCUMENT.write_text(document())
        return 0
    if DOCUMENT.read_text() == document():
        return 0
    print("docs/MESSAGES.md is not what the catalogue gives: run tools/make_messages.py", file=sys.stderr)
    return 1


if __name__ == "__main__":
    sys.exit(main(sys.argv[1:]))
