"""The faults of lines of tmpfiles.d(5): each makes the program leave the line out."""

from .catalogue_form import AT_LINE, NOTE, TMPFILES, Message, Section

BOTH = ("path", "argument")
FACT_NAMES = {"a": "architecture", "b": "boot ID", "H": "host name", "l": "short host name", "m": "machine ID",
              "v": "kernel release"}


def fault(code: str, text: str, meaning: str, advice: str, *about: str) -> Message:
    """A fault of a line, which is left out; all others are carried out, and the status is 65."""
    return Message(code, AT_LINE + code, text, meaning, advice, about, status="65")


FIELDS = Section(
    "Faults of any line",
    "A line of tmpfiles.d(5) or sysusers.d(5) with one of these faults is left out, and the status is 65. "
    "A line is read from the left, and its first fault is named.",
    (
        fault("BadByte", "a NUL byte in the line",
              "The line holds a NUL byte.", "Remove the byte.", "line"),
        fault("OpenQuote", "a quote that is never closed",
              "A field begins with a quote, and the line ends before the quote is closed.",
              "Close the quote, or write \\x22 for a double and \\x27 for a single quote.", "line"),
        fault("GluedQuote", "no blank after a closing quote",
              'Something follows directly after a closing quote, as in `d "/a"b`.',
              "Put a blank after the quote, or put the quotes around the whole field.", "line"),
        fault("BadEscape", "{field} is not an escape",
              "A backslash is followed by something that is not an escape, as in `d /a\\q`.",
              "Write \\\\ for a backslash, and \\xHH for the byte HH.", "line"),
        fault("TooFew", "the line has too few fields",
              "The line has a type and no path (tmpfiles.d(5)) or no name (sysusers.d(5)).",
              "Complete the line, or put # in front of it.", "line"),
        fault("UnknownSpecifier", "{field} is not a specifier",
              "A `%` stands at the end, or before a letter that has no meaning.",
              "Write %% for a percent sign.", "specifier"),
        Message("MissingFact", AT_LINE + "MissingFact", "the image has no {fact} for {field}",
                "The line uses a specifier whose value is known on a running system only: `%a`, `%b`, `%H`, `%l`, "
                "`%m` or `%v`. The image does not give that value ([facts](FORMAT.md#facts)).",
                "Nothing needs to be done if the line is for a running system. Otherwise give the value by "
                "--fact {letter}=VALUE.",
                ("specifier",), NOTE, "65"),
    ),
)

TYPES = Section(
    "Faults of lines of tmpfiles.d(5)",
    "The line is left out, and the status is 65.",
    (
        fault("UnknownType", "unknown type {field}",
              "The first field does not begin with the letter of a type of tmpfiles.d(5).",
              "Correct the type. The types k and K of systemd 262 are not known.", "type"),
        Message("Credential", AT_LINE + "BadModifier", "{field} asks for a credential, which an image does not have",
                "The type has the modifier `^`, so the argument is the name of a credential. Credentials belong to a "
                "running system.", "Nothing needs to be done. A link to /dev/null in /etc/tmpfiles.d, with the name of "
                "the file, hides its lines.", ("modifier",), NOTE, "65", "a type with `^`"),
        fault("BadModifier", "the type {field} has a modifier that it does not take",
              "The type is followed by a modifier that it does not take, as in `d+ /a`, or by one modifier twice.",
              "Remove the modifier.", "type"),
        fault("NotAbsolute", "{field} is not an absolute path",
              "The path, or the source of a `C` line, does not begin with a slash.",
              "Write the path from the root.", *BOTH),
        fault("PathTooLong", "the path is longer than 4095 bytes",
              "The path, the source of a `C` line or the target of an `L` line has more than 4095 bytes.",
              "Write a shorter path.", *BOTH),
        fault("NameTooLong", "a name in the path is longer than 240 bytes",
              "A name in the path has more than 240 bytes. New objects are made under a longer name first, so the "
              "limit is below the usual 255.", "Write a shorter name.", *BOTH),
        fault("DotComponent", "{field} contains `.` or `..`",
              "A path has `.` or `..` between its slashes.", "Write the path without them.", *BOTH),
        fault("StagingName", "a name in {field} begins with `.#tf-`",
              "Names that begin with `.#tf-` are the program's own: it makes new objects under them.",
              "Choose another name.", *BOTH),
        fault("RootPath", "{field} is the root directory, which this type may not change",
              "The path is `/`, or a pattern that matches it, and the type does not allow it, as in `f /`.",
              "Name an object below the root.", "path"),
        fault("UnclosedBracket", "a bracket in the pattern is not closed",
              "The pattern has `[` without `]`.", "Close it, or write \\\\[ for a bracket in a name.", "path"),
        fault("BadRange", "a range in the pattern runs backwards",
              "The pattern has a range such as `[z-a]`.", "Write the lower end first.", "path"),
        fault("BadClass", "an unknown class of characters in the pattern",
              "The pattern has a class such as `[[:word:]]` that does not exist.",
              "Use a class of glob(7), such as [:alpha:].", "path"),
        fault("Brace", "the braces in the pattern do not fit",
              "Braces do not match, are empty (`{{}}`), or stand for more than 256 alternatives.",
              "Correct the braces, or write one line for each alternative.", "path"),
        fault("TrailingBackslash", "a backslash at the end of a name in the pattern",
              "A backslash stands at the end of a name of the pattern, so it has nothing to protect.",
              "Remove it, or double it.", "path"),
        fault("BadMode", "{field} is not a mode",
              "The mode is not an octal number up to 7777, or has other prefixes than `~` and `:`, each once.",
              "Write octal digits, such as 0755.", "mode"),
        fault("UnknownUser", "unknown user {field}",
              "The image's /etc/passwd has no such user, and the field is not a UID.",
              "Run systemd-sysusers first, add a line for this user to a file in sysusers.d, or write the UID.",
              "user"),
        fault("UnknownGroup", "unknown group {field}",
              "The image's /etc/group has no such group, and the field is not a GID.",
              "Run systemd-sysusers first, add a line for this group to a file in sysusers.d, or write the GID.",
              "group"),
        fault("BadStampLetter", "{field} begins with a letter that is not a timestamp's",
              "A letter before the colon of the age is none of `a`, `b`, `c`, `m`, `A`, `B`, `C` and `M` (`z:1d`).",
              "Use these letters.", "age"),
        fault("BadNumber", "{field} is not an age",
              "A part of the age has no whole number. Fractions and blanks are not allowed.",
              "Write whole numbers with units, such as 36h or 1w2d.", "age"),
        fault("BadUnit", "{field} has an unknown unit of time",
              "The age has an unknown unit. Months and years are not known.",
              "Use us, ms, s, min, h, d or w.", "age"),
        fault("Overflow", "{field} is too long a time",
              "The age is too large for a number of 64 bits in microseconds.", "Write a smaller number.", "age"),
        fault("ArgumentNeeded", "the type needs an argument",
              "The type needs an argument, and the line has none, as in `w /a`.",
              "Write the argument in the seventh field, with `-` in the fields before it that are not used.",
              "argument"),
        fault("BadBase64", "the argument is not Base64",
              "The type has the modifier `~`, and the argument is not Base64 without blanks.",
              "Encode the contents with base64 -w0.", "argument"),
        fault("BadDevice", "{field} is not a device number",
              "The argument of a `c` or `b` line is not `MAJOR:MINOR`.", "Write it as 1:3.", "argument"),
        fault("BadAttribute", "{field} is not a list of extended attributes",
              "The argument of a `t` or `T` line is not a list of `NAMESPACE.NAME=VALUE`, or names an attribute of "
              "`system.`.", "Write it as user.note=text.", "argument"),
        fault("BadLetter", "{field} is not a list of file attribute flags",
              "The argument of an `h` or `H` line is not a list of letters of chattr(1), with `+`, `-` or `=` in front "
              "of it or without.", "Use letters of ACDPSTacdeijstu.", "argument"),
        fault("EmptyEntry", "an empty entry in the ACL",
              "The ACL has nothing between two commas.", "Remove a comma.", "acl"),
        fault("BadTag", "{field} is not an ACL entry",
              "An entry of the ACL is not `TAG:NAME:PERMISSIONS`, or gives a name to a mask or to others. TAG is `user` or "
              "`u`, `group` or `g`, `mask` or `m`, `other` or `o`. `default:` or `d:` may stand before it.",
              "Write it as group:adm:r-x.", "acl"),
        fault("UnknownName", "the ACL entry {field} names an unknown user or group",
              "The account files of the image have no user or group of this name.",
              "Run systemd-sysusers first, add a line for this name to a file in sysusers.d, or write the ID.",
              "acl"),
        Message("ConditionalExecute", AT_LINE + "BadPerm", "the ACL entry {field} has the permission X",
                "The permission `X` (execute for directories and executable files alone) is known to systemd 257, and not "
                "to 252. The program does not know it either.",
                "Nothing needs to be done for an image. If you need these entries, write two lines: one with r-x for the "
                "directories, and one with r-- for the files.", ("acl",), NOTE, "65", "a permission with `X`"),
        fault("BadPerm", "the ACL entry {field} has permissions other than r, w, x and -",
              "The permissions of an entry are not one to three characters of `r`, `w`, `x` and `-`, each letter "
              "once.", "Write them as r-x.", "acl"),
    ),
    TMPFILES,
)
