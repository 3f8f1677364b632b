"""--ids-from OLD: new users and groups get the numbers that they have in an older root.

The program is asked twice. The first run shows which users and groups the
configuration asks for and the root does not have. For each of them that the
older root has, a line with its number comes into a configuration file that is
read before all others, and the second run makes them. That file is in the
image of the second run alone, and not in what it gives.
"""

import os
from collections import Counter
from collections.abc import Iterable
from dataclasses import dataclass, field

from .configuration import ImageFiles
from .inputs import open_archive
from .program import Answer, CannotRun, Program
from .runs import Run
from .tree import with_file, without_file
from tar_stream import TarReader
from tree_image import LARGEST_ID, Trouble, printed_path

FOLDERS = ("/usr/lib/sysusers.d", "/usr/local/lib/sysusers.d", "/run/sysusers.d", "/etc/sysusers.d")
NEITHER = 65535  # no user and no group may have it
ACCOUNT_FILES = ("passwd", "group")


@dataclass(frozen=True, slots=True)
class User:
    """A user of /etc/passwd, with what /etc/shadow says of its end."""

    uid: int
    gid: int
    gecos: str
    home: str
    shell: str
    is_locked: bool = False


@dataclass(frozen=True, slots=True)
class Accounts:
    """The users and groups of a root by name; of two with one name the first counts."""

    users: dict[str, User]
    groups: dict[str, int]


@dataclass(frozen=True, slots=True)
class Clash:
    """A user or group that could not get its number of the older root, and the number that it got."""

    kind: str
    name: str
    wanted: int
    got: int | None


def _entries(text: bytes, length: int) -> list[list[str]]:
    """The entries of an account file that have so many fields."""
    lines = text.decode("utf-8", "surrogateescape").split("\n")
    return [fields for fields in (line.split(":") for line in lines) if len(fields) == length]


def _is_number(text: str) -> bool:
    return text.isascii() and text.isdigit() and int(text) <= LARGEST_ID


def read_accounts(passwd: bytes, group: bytes, shadow: bytes = b"") -> Accounts:
    """The users and groups that account files have."""
    ended = {fields[0] for fields in _entries(shadow, 9) if fields[7] == "1"}
    users: dict[str, User] = {}
    for name, _, uid, gid, gecos, home, shell in _entries(passwd, 7):
        if _is_number(uid) and _is_number(gid):
            users.setdefault(name, User(int(uid), int(gid), gecos, home, shell, name in ended))
    groups: dict[str, int] = {}
    for name, _, gid, _ in _entries(group, 4):
        if _is_number(gid):
            groups.setdefault(name, int(gid))
    return Accounts(users, groups)


def accounts_of_image(image: bytes) -> Accounts:
    """The users and groups of the tree of an image."""
    files = ImageFiles(image)
    return read_accounts(*(files.content(b"/etc/" + name) or b"" for name in (b"passwd", b"group", b"shadow")))


def old_accounts(path: str) -> Accounts:
    """The users and groups of an older root: an archive, a prepared folder, or a directory with the account files."""
    try:
        texts = _texts_of_directory(path) if os.path.isdir(path) else _texts_of_archive(path)
    except Trouble as trouble:
        raise CannotRun(f"{path}: {trouble}") from None
    except OSError as fault:
        raise CannotRun(f"{fault.filename or path}: {fault.strerror or fault}") from None
    if not texts:
        raise CannotRun(f"{path}: it has no account files (passwd, group) to take numbers from")
    return read_accounts(texts.get("passwd", b""), texts.get("group", b""))


def _texts_of_directory(path: str) -> dict[str, bytes]:
    """The account files in a prepared folder, a root directory, or a directory such as /etc."""
    texts = {}
    for folder in (os.path.join(path, "tree", "etc"), os.path.join(path, "etc"), path):
        for name in ACCOUNT_FILES:
            file = os.path.join(folder, name)
            if os.path.isfile(file):
                with open(file, "rb") as opened:
                    texts[name] = opened.read()
        if texts:
            break
    return texts


def _texts_of_archive(path: str) -> dict[str, bytes]:
    """The account files in an archive; of two with one name the last counts."""
    texts = {}
    with open_archive(path) as file:
        reader = TarReader(file)
        for member in reader.members(by_seek=True):
            names = [name for name in member.name.split(b"/") if name not in (b"", b".")]
            if len(names) == 2 and names[0] == b"etc" and member.kind in b"0\0" and names[1].decode(
                    "latin-1") in ACCOUNT_FILES:
                texts[names[1].decode()] = reader.whole(member)
    return texts


def quoted(text: str) -> str:
    """A field of a line of sysusers.d(5): `-` for an empty one."""
    if not text:
        return "-"
    for plain, escaped in (("\\", "\\\\"), ('"', '\\"'), ("%", "%%")):
        text = text.replace(plain, escaped)
    return f'"{text}"'


def lines_for(before: Accounts, made: Accounts, old: Accounts) -> list[str]:
    """The lines that give the older root's numbers to what a run has made; all else is as the run made it."""
    lines = [f"g {name} {old.groups[name]}" for name in made.groups
             if name not in before.groups and old.groups.get(name, NEITHER) != NEITHER]
    group_names: dict[int, str] = {}
    for name, number in made.groups.items():
        group_names.setdefault(number, name)
    for name, user in made.users.items():
        if name in before.users or name not in old.users or old.users[name].uid == NEITHER:
            continue
        group = group_names.get(user.gid, user.gid)
        lines.append(f"u{'!' if user.is_locked else ''} {name} {old.users[name].uid}:{group} "
                     f"{quoted(user.gecos)} {quoted(user.home)} {quoted(user.shell)}")
    return lines


def clashes(before: Accounts, after: Accounts, old: Accounts) -> list[Clash]:
    """The new users and groups that the older root has with other numbers."""
    found = [Clash("user", name, old.users[name].uid, user.uid) for name, user in after.users.items()
             if name not in before.users and name in old.users and old.users[name].uid != user.uid]
    found += [Clash("group", name, old.groups[name], number) for name, number in after.groups.items()
              if name not in before.groups and name in old.groups and old.groups[name] != number]
    return found


def _free_path(image: bytes, run: Run) -> bytes:
    """A path for the file of this run alone, that nothing has: one whose name is read before all others of a folder."""
    folder = "" if run.files else next((it for it in FOLDERS if b"\nd " + it.encode() + b" " in image), None)
    if folder is None:
        raise CannotRun("--ids-from: the root has no sysusers.d folder, so no line can be added to its configuration")
    name = "!ids-from.conf"
    while any(f" {it}/{name} ".encode() in image for it in ("", *FOLDERS)):
        name = "!" + name
    return f"{folder}/{name}".encode()


@dataclass(slots=True)
class KeptIds:
    """Does runs of systemd-sysusers with the numbers of an older root. `clashes` are those that it could not keep."""

    old: Accounts
    clashes: list[Clash] = field(default_factory=list)

    def step(self, program: Program, run: Run, image: bytes, time: int) -> Answer:
        """One run, as `carry_out` takes it."""
        plain = program.run(run.words, image, time=time)
        before, made = accounts_of_image(image), accounts_of_image(plain.image or image)
        lines = lines_for(before, made, self.old)
        if not lines:
            return plain
        path = _free_path(image, run)
        text = "".join(line + "\n" for line in lines).encode("utf-8", "surrogateescape")
        answer = program.run(_words_with(run, path), with_file(image, path, text), time=time)
        new_image = without_file(answer.image or image, path)
        self.clashes += clashes(before, accounts_of_image(new_image), self.old)
        return Answer(answer.status, _messages(answer.messages, plain.messages, path), new_image)


def _words_with(run: Run, path: bytes) -> list[str]:
    """The words of a run that reads the file at a path too, before the files that the run names."""
    files = (path.decode(), *run.files) if run.files else ()
    return Run(run.tool, run.options, files).words


def _messages(messages: Iterable[bytes], plain: Iterable[bytes], path: bytes) -> list[bytes]:
    """The messages of a run without those that its added file brings: on its own lines, and on lines as duplicates."""
    known = Counter(plain)
    kept = []
    for message in messages:
        if message.startswith(printed_path(path).encode() + b":"):
            continue
        if b": duplicate line for " in message and not known[message]:
            continue
        known[message] -= 1
        kept.append(message)
    return kept
