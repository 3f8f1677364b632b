"""The faults of lines of sysusers.d(5), and what systemd-sysusers says when it gives numbers."""

from .catalogue_form import AT_LINE, ERROR, SYSUSERS, WARNING, Message, Section


def fault(code: str, text: str, meaning: str, advice: str, *about: str) -> Message:
    """A fault of a line, which is left out; all others are carried out, and the status is 65."""
    return Message(code, AT_LINE + code, text, meaning, advice, about, status="65")


FAULTS = Section(
    "Faults of lines of sysusers.d(5)",
    "The line is left out, and the status is 65. The first section of faults applies to these lines too.",
    (
        fault("BadType", "unknown type {field}",
              "The type is none of `u`, `u!`, `g`, `m` and `r`.", "Correct the type.", "type"),
        fault("MissingField", "the line has no group or range",
              "An `m` line names no group, or an `r` line has no range.",
              "Write the group or the range in the third field.", "id"),
        fault("BadName", "{field} is not a name of a user or a group",
              "A name does not begin with a letter or `_`, has other characters than letters, digits, `_` and `-`, or "
              "has more than 31 characters. Or an `r` line has a name other than `-`.",
              "Correct the name.", "name", "id"),
        fault("BadId", "{field} is not an ID",
              "The ID is none of these: `-`; a number from 0 to 4294967294 except 65535; a path other than `/`, `/etc` and "
              "those of account files; in a `u` line also `UID:GID`, `UID:GROUP`, `-:GID` and `-:GROUP`.",
              "Write a number, or - for a free one.", "id"),
        fault("BadRange", "{field} is not a range of IDs",
              "The range of an `r` line must be one ID, or two with the lower one first. So `r - 9-5` is not one.",
              "Write it as 500-599.", "id"),
        fault("BadField", "{field} is not allowed here",
              "The comment, the home directory or the shell has a colon or a control character. Or the home directory "
              "or the shell is not an absolute path. Or the line goes on after its last field.",
              "Correct the field. A comment with blanks needs quotes.", "gecos", "home", "shell", "rest"),
    ),
    SYSUSERS,
)

ACCOUNTS = Section(
    "Users and groups",
    "After each message of this section with status 1 or 73 no account file was changed.",
    (
        Message("InUse", AT_LINE + "NUMBER is in use for NAME",
                "'{name}' does not get the ID {number}, which another account has",
                "The line asks for the ID NUMBER for the user or group NAME. But another user has this UID, or a group "
                "with another name has this GID. NAME was made all the same. The group with the name of a user may "
                "have a GID that is not 0 and is free as a UID. Then the user got this number as its UID. In all other "
                "cases NAME got the highest free ID of the pool. The pool is 1 to 999, or the ranges of all `r` lines.",
                "Write another ID or -, or put {name} into the account file of the image beforehand.",
                ("id",), WARNING),
        Message("NoFreeId", "no free id for NAME", "there is no free ID for '{name}'",
                "All IDs of the pool are in use, so nothing was done. The pool is 1 to 999, or the ranges of all "
                "`r` lines.",
                "Add an r line with a wider range to a file in sysusers.d.", (), ERROR, "1"),
        Message("AccountFile", "PATH is a KIND, left", "the account file {path} is a {kind}",
                "An account file is not a regular file, so no account file was changed.",
                "Put a regular file in its place.", (), ERROR, "73"),
        Message("AccountLink", "PATH refused at PLACE: link", "{path} cannot be changed: {place} is a symbolic link",
                "A directory of an account file is a symbolic link, so no account file was changed.",
                "Make /etc a directory.", (), ERROR, "73"),
        Message("AccountDirectory", "PATH refused at PLACE: not a directory",
                "{path} cannot be changed: {place} is not a directory",
                "/etc is neither a directory nor a symbolic link, so no account file was changed.",
                "Make /etc a directory.", (), ERROR, "73"),
        Message("AccountOwner", "PATH refused at PLACE: unsafe owner",
                "{path} cannot be changed: the owner of {place} differs from that of the directory above it",
                "The account file, or /etc, has another owner than the directory above it, which does not belong to "
                "root. So no account file was changed.",
                "Give /etc and the account files to root.", (), ERROR, "73"),
    ),
    SYSUSERS,
)
