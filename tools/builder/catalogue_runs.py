"""What a run says of its input, of files of configuration, of lines that are refused, and what a report says."""

from .catalogue_form import ANSWER, AT_LINE, ERROR, NOTE, WARNING, Message, Section


def image_fault(code: str, text: str, meaning: str, advice: str) -> Message:
    """A fault of an input that is not an image: nothing was done."""
    return Message(code, f"bad image at line N: {code}", text, meaning, advice, (), ERROR, "66")


def folder_fault(code: str, text: str, meaning: str, advice: str) -> Message:
    """A fault of a folder: nothing was done."""
    return Message(code, f"bad folder: {code}", text, meaning, advice, (), ERROR, "66")


INPUT = Section(
    "Input and folders",
    "Four statuses have no message of their own:\n\n"
    "- 71: the program ran out of memory.\n"
    "- 74: standard input could not be read.\n"
    "- 76: standard output could not be written.\n"
    "- 77: a folder could not be read or written. FOLDER or something in it could not be read, or a name there is not "
    "UTF-8. Or something below `tree` could not be written, or the manifest could not.\n\n"
    "Without `--root` there is then no usable output, and the input is as it was. Remove the cause, and run again. "
    "With `--root` the folder may have changed. [This table](USAGE.md#what-a-run-writes) says what it holds after each "
    "status, and what to do.\n\n"
    "The following messages stand alone. After one of them nothing was done, and no image was written.",
    (
        Message("Usage", "usage", "these arguments are not valid",
                "The arguments of `provision` are not a command that it knows, or are not UTF-8.",
                "See provision(1).", (), ERROR, "1"),
        image_fault("BadHeader", "line {n} of the image is not a header",
                    "The first line that is not a message is not `tree-image 1` or `tree-image 2`.",
                    "Give the program a tree image, such as tar_to_image writes."),
        image_fault("BadLine", "line {n} of the image is misspelled",
                    "The line is not spelled as [the format](FORMAT.md#faults) asks for.",
                    "Correct the line, or make the image again."),
        image_fault("OutOfOrder", "line {n} of the image is out of order",
                    "Facts come in the order of their letters, and objects in the order of their paths, each once.",
                    "Sort the lines."),
        image_fault("NoParent", "the object of line {n} of the image lies in no directory",
                    "Each object lies in a directory that stands before it. The first object is the directory `/`.",
                    "Add the directory."),
        image_fault("Truncated", "the image ends at line {n}",
                    "The input ends before the line `end`, or inside a line.",
                    "Check that the program that wrote the image succeeded."),
        Message("TooLong", "bad image: TooLong", "the image has more than 64 MiB",
                "An image has at most 67,108,864 bytes.",
                "Use tar_to_image, which writes a marker instead of the contents of a large file.", (), ERROR, "66"),
        folder_fault("NotPrepared", "the folder is not prepared",
                     "FOLDER or FOLDER/tree is not a directory, or `manifest` or `manifest.new` is there and is not a "
                     "file.",
                     "Make a folder from an archive with tar_to_image --folder=FOLDER ROOT.tar. Do not make `tree` by "
                     "hand. A run on an empty `tree` makes nothing, and has status 0. The manifest that it writes lacks "
                     "the directories and files of the old one."),
        folder_fault("BadManifest", "the manifest of the folder is not an image",
                     "FOLDER/manifest is not a tree image. To see the line, give it to the program as standard input.",
                     "Make the folder again with tar_to_image --folder=FOLDER ROOT.tar."),
        folder_fault("OddObject", "the folder's tree has something else than directories and files",
                     "Below FOLDER/tree there is something other than directories and regular files, or a name "
                     "that no image can have. Or something vanished while it was read.",
                     "Find it with find FOLDER/tree ! -type d ! -type f. Such objects belong in the manifest."),
        folder_fault("TooLarge", "the folder's tree is too large",
                     "FOLDER/tree has more than 1,000,000 objects, or more than 64 MiB in its files.",
                     "Use an archive, or make the folder with tar_to_image --folder=FOLDER ROOT.tar, which keeps the "
                     "contents of large files outside of `tree`."),
    ),
)

CONFIGURATION = Section(
    "Configuration files",
    "These messages are about whole files, or about lines that are not carried out as they are written.",
    (
        Message("NotRegular", "FILE: not a regular file", "{file} is not a regular file, so it is not read",
                "A name in a folder of configuration files is a directory, or a symbolic link to something other than "
                "/dev/null. It still hides the files of its name in later folders.",
                "Put a regular file in its place.", (), WARNING),
        Message("NotFound", "WORD: not found", "{word} is not found",
                "WORD is an argument that names a configuration file, and is not a file of the image. All others are "
                "read. A name without a slash at its beginning is looked for in the four folders of configuration "
                "files.",
                "Correct the argument.", (), ERROR, "73"),
        Message("OldRun", AT_LINE + "/var/run/ read as /run/", "/var/run/ is read as /run/",
                "The path begins with /var/run/, the old name of /run/. The line is carried out below /run/.",
                "Write /run/ in the line.", ("path",), WARNING),
        Message("Duplicate", AT_LINE + "duplicate line for PATH", "an earlier line already makes {path}",
                "An earlier line makes the same path (or, in sysusers.d(5), the same user), but differently. The "
                "earlier line counts, and this one is left out.",
                "Remove one of the two lines.", ("path",), WARNING),
    ),
)

REFUSED = Section(
    "Lines that are refused",
    "The line was not carried out at this path. All others were. If its type has the modifier `-`, a refusal in "
    "creating does not change the status. The permission bits of the directories above are not checked.",
    (
        Message("Link", AT_LINE + "PATH refused at PLACE: link", "{place} is a symbolic link, so {path} is refused",
                "A name of the path, other than the last one, is a symbolic link. The program does not follow such "
                "links.",
                "Write the path that the link leads to.", ("path",), ERROR, "73"),
        Message("NotDirectory", AT_LINE + "PATH refused at PLACE: not a directory",
                "{place} is not a directory, so {path} is refused",
                "A name of the path, other than the last one, is neither a directory nor a symbolic link.",
                "Remove it, or make it a directory by a line `d= {place}`.", ("path",), ERROR, "73"),
        Message("UnsafeOwner", AT_LINE + "PATH refused at PLACE: unsafe owner",
                "the owner of {place} differs from that of the directory above it, so {path} is refused",
                "PLACE and the directory above it have different owners, and that directory does not belong to root. "
                "So its owner could replace PLACE. An object that is not there yet counts as owned by the user of the "
                "line, or by root if the line has none.",
                "Give the line the user of the directory, or give the directory to root.", ("path",), ERROR, "73"),
        Message("SourceLink", AT_LINE + "source PATH refused at PLACE: link",
                "{place} is a symbolic link, so nothing is copied from {path}",
                "A name of the path that a `C` line copies, other than the last one, is a symbolic link.",
                "Write the path that the link leads to.", ("argument", "path"), ERROR, "73"),
        Message("SourceNotDirectory", AT_LINE + "source PATH refused at PLACE: not a directory",
                "{place} is not a directory, so nothing is copied from {path}",
                "A name of the path that a `C` line copies, other than the last one, is neither a directory nor a "
                "symbolic link.",
                "Correct the source.", ("argument", "path"), ERROR, "73"),
        Message("Left", AT_LINE + "PATH is a KIND, left", "{path} is a {kind}, so the line leaves it as it is",
                "The line is not for an object of this kind. Examples are a symbolic link for `w` or `e`, a file for "
                "`D` when removing, and a file where a `d` line makes a directory.",
                "Nothing needs to be done if the object is as you want it. If the line makes an object, add = to its type, "
                "as in d=, and the line replaces what is there. Lines of the types w and e take no =.",
                ("path",), NOTE),
        Message("NotEmpty", AT_LINE + "PATH is not empty", "{path} is not empty, so it is not removed",
                "An `r` line names a directory in which something remains.",
                "Use the type R, or add lines for what is in the directory.", ("path",), ERROR, "73"),
    ),
)


def hazard(reason: str, text: str, meaning: str, advice: str) -> Message:
    """Why a configuration is not repeatable: its second run may do something else than its first."""
    return Message("Hazard" + reason.capitalize(), f"unrepeatable FILE:N {reason}", text, meaning, advice,
                   ("type",), WARNING)


REPORTS = Section(
    "Reports, explanations and ends",
    "Reports and explanations do no step on the tree. A line has a **hazard** if it can make the result of "
    "creating twice, or of creating again after a stop, differ from that of creating once.",
    (
        Message("Overlap", "overlap FILE:N OTHER at PATH", "this line and {other} share the path {path}",
                "Both lines are about PATH, the first path that they share. The tree need not have it. OTHER is the file "
                "and the number of the second line. This is not an error.", "", ("path",), ANSWER),
        hazard("append", "the line appends at each run", "A `w+` line appends its argument again at each run.",
               "Use w or f+, which write the whole file."),
        hazard("source", "the line may change what a C line copies",
               "The line may change what a `C` line copies, so a second run may copy something else.",
               "Copy from a path that no line changes."),
        hazard("below", "the line makes something below what a C line makes",
               "The line makes something below what a `C` line makes, so the copy depends on which came first.",
               "Put it into the directory that is copied."),
        hazard("input", "the line may change configuration files, /etc/passwd or /etc/group",
               "The line may change files that the run itself reads: configuration files, /etc/passwd or /etc/group.",
               "Give the line a run of its own."),
        hazard("mask", "a mode with ~ meets an ACL with a base entry",
               "A mode with `~` and an ACL line with a base entry (for the owner, the owning group or others) reach one "
               "path. So the result depends on how often they are run.", "Write a mode without ~."),
        Message("Verdict", "VERDICT", "the configuration is {verdict}",
                "The last line of a report: `repeatable` if no line has a hazard, otherwise `not repeatable`. Creating by "
                "a repeatable configuration is idempotent and crash-safe, as long as no line is refused "
                "([the promise](PROMISES.md)).", "", (), ANSWER),
        Message("Acts", "explain FILE:N ACT PATH", "the line {act} {path}",
                "What the line does to PATH in a creating run. It `makes` an object that was absent before it, and "
                "`removes` one that is absent after it. A line that `changes` the object changes something other than "
                "timestamps.",
                "", ("path",), ANSWER),
        Message("Absent", "explain PATH is absent", "after all lines {path} is absent",
                "After all lines there is nothing at PATH.", "", (), ANSWER),
        Message("State", "explain PATH is STATE", "after all lines {path} is {state}",
                "What is at PATH after all lines, as `KIND MODE UID GID ACL ATTRS LETTERS PAYLOAD` of "
                "[an image](FORMAT.md#nodes).", "", (), ANSWER),
        Message("Stopped", "stopped after N steps", "the run was stopped after {n} steps",
                "The option `--stop-after=N` stopped the run.",
                "Run the same arguments over the output, without that option.", (), ANSWER, "75"),
        Message("Generated", "generated COUNT lines NODES nodes", "a tree of {nodes} objects and {count} lines",
                "What `generate` made.", "", (), ANSWER),
        Message("Created", "created NODES nodes MESSAGES messages",
                "after creating the tree has {nodes} objects, with {messages} messages",
                "What creating over the tree of `generate` gave.", "", (), ANSWER),
        Message("Overlaps", "PAIRS overlaps, VERDICT", "{pairs} overlaps, {verdict}",
                "What the report over the tree of `generate` says.", "", (), ANSWER),
    ),
)
