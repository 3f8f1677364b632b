"""provision-image why: which lines make, change, clean or remove a path."""

import argparse
import json
import os
from dataclasses import asdict, dataclass, field

from tree_image import KIND_NAMES, printed

from .apply import do_runs, report_of
from .catalogue_form import ANSWER, TMPFILES
from .cleaning import CLEAN, LAST, REMOVE, Asker, Blame, TooManyRuns, first_time, sparing_line, taking_line
from .configuration import ImageFiles, Place, has_path, node_line, without_path
from .fields import PATH, cut_line
from .likely import SECOND
from .messages import Finding, judge, shown_text
from .options import Session, add_input, add_run_options, begin
from .overlaps import acts_in, explain_words, word_of
from .program import time_text
from .runs import Ran
from .why_text import Fate, LineShown, WhyAnswer, text_of

TAKING = ("--remove", "--clean", "--purge")
EXAMPLE = """example:
  provision-image why /run/app root.tar
  provision-image why /tmp/report.pdf --now=2026-01-01T00:00:00Z root.tar

The time of cleaning is found by asking the program at other times, and the
line by asking it without single lines. The answer says how often it was asked.
"""


def path_option(text: str) -> bytes:
    """A path of the tree without a slash at its end, as the image prints it."""
    path = os.fsencode(text)
    names = path.rstrip(b"/").split(b"/")[1:]
    if not path.startswith(b"/") or any(name in (b"", b".", b"..") for name in names):
        raise argparse.ArgumentTypeError(f"{text!r} is not a path from the root without `.`, `..` and double slashes")
    return printed(path.rstrip(b"/") or b"/")


def add_arguments(parser: argparse.ArgumentParser) -> None:
    """The arguments of the command."""
    parser.add_argument("path", metavar="PATH", type=path_option, help="a path of the root, or of what the runs make")
    add_input(parser)
    add_run_options(parser)


def run(arguments: argparse.Namespace) -> int:
    """Show the answer, and give the exit status."""
    session = begin(arguments)
    rans = do_runs(session)
    status = report_of(session, rans, arguments).finish()
    question = _Question(session, arguments.path, rans)
    question.find_state()
    question.find_acts()
    question.find_refused(arguments.strict)
    if question.answer.in_root or question.answer.after_runs:
        question.find_cleaning()
        question.find_removing()
    question.answer.runs = session.program.runs
    print(json.dumps({"kind": "why", **asdict(question.answer)}) if arguments.json else text_of(question.answer))
    return status


@dataclass
class _Question:
    """A path and the runs that were made; its answer is found part by part."""

    session: Session
    path: bytes  # as the image prints it
    rans: list[Ran]
    answer: WhyAnswer = field(init=False)

    def __post_init__(self) -> None:
        self.answer = WhyAnswer(self.path.decode())

    @property
    def _finished(self) -> bytes:
        """The image after the runs, or the root if the path is in that alone."""
        after = self.rans[-1].image
        return after if has_path(after, self.path) else self.session.root.image

    def find_state(self) -> None:
        """What the path is in the root, and after the runs."""
        self.answer.in_root = _object_at(self.session.root.image, self.path)
        self.answer.after_runs = _object_at(self.rans[-1].image, self.path)

    def find_acts(self) -> None:
        """Which lines, and which runs, make or change the path."""
        for ran in self.rans:
            if ran.run.tool == TMPFILES:
                self._find_removal_in(ran)
            elif _essence(ran.before, self.path) != _essence(ran.image, self.path):
                self.answer.changing_runs.append(str(ran.run))
            if "--create" in ran.run.options:
                self._find_acts_in(ran)

    def _find_removal_in(self, ran: Ran) -> None:
        """The line that takes the path in the phases of a run that come before creating."""
        phases = [it for it in ran.run.options if it in TAKING]
        if not phases or not has_path(ran.before, self.path):
            return
        asker = Asker(self.session.program, ran.before, self.path)
        words = [it for it in ran.words if it != "--create"]
        blame = taking_line(asker, words, self.session.now) if asker.goes(words, self.session.now) else None
        self._count(asker)
        if blame is not None:
            self.answer.acts.append(self._shown(blame.place, ran.before, "removes"))

    def _find_acts_in(self, ran: Ran) -> None:
        """The lines that act on the path in a creating run, as the program lists them."""
        word = word_of(self.path)
        if word is None:
            self.answer.messages.append("the program takes paths in UTF-8 only, so it cannot say which lines act")
            return
        acts = self._acts(explain_words(ran.run, word), ran.before)
        if has_path(ran.before, self.path) and self.path != b"/" and all(it.act != "makes" for it in acts):
            would = self._acts(explain_words(ran.run, word), without_path(ran.before, self.path))
            acts += [LineShown(it.file, it.line, it.source, "would make") for it in would if it.act == "makes"]
        self.answer.acts += acts

    def _acts(self, words: list[str], image: bytes) -> list[LineShown]:
        """The lines that an explanation lists."""
        answer = self.session.program.run(words, image, time=self.session.now)
        return [self._shown(it.place, image, it.act) for it in acts_in(answer.messages)]

    def find_refused(self, strict: bool) -> None:
        """The messages about lines that name the path."""
        for ran in self.rans:
            for it in judge(ran.answer.messages, ran.before, strict, words=ran.words, status=ran.answer.status):
                if it.severity != ANSWER and it.source is not None and _names(it, self.path):
                    self.answer.messages.append(it.text(lines=False))

    def find_cleaning(self) -> None:
        """When and by which line the path would be cleaned, or for which line it stays."""
        asker = Asker(self.session.program, self._finished, self.path)
        fate = Fate("cleaned")
        try:
            time = first_time(asker, CLEAN, self.session.now)
            fate.happens = time is not None
            fate.time = time_text(time).replace(".000000Z", "Z") if time else None
            if time is None:
                self._put_line(fate, sparing_line(asker, CLEAN, LAST))
            else:
                self._put_line(fate, taking_line(asker, CLEAN, time, time - SECOND if time else None))
        except TooManyRuns:
            fate.complete = False
        self._close(fate, asker)

    def find_removing(self) -> None:
        """Whether, and by which line, the path is removed at boot."""
        asker = Asker(self.session.program, self._finished, self.path)
        fate = Fate("removed")
        try:
            fate.happens = asker.goes(REMOVE, self.session.now)
            self._put_line(fate, taking_line(asker, REMOVE, self.session.now) if fate.happens else None)
        except TooManyRuns:
            fate.complete = False
        self._close(fate, asker)

    def _put_line(self, fate: Fate, blame: Blame | None) -> None:
        if blame is not None:
            fate.line = self._shown(blame.place, self._finished)
            fate.line_alone = blame.alone

    def _close(self, fate: Fate, asker: Asker) -> None:
        """Add what was found, and how often the program was asked for it."""
        fate.runs = asker.at_times + asker.without_lines
        self.answer.fates.append(fate)
        self._count(asker)

    def _count(self, asker: Asker) -> None:
        """Count the runs of an asker that has done its work."""
        asker.bar.end()
        self.answer.runs_at_times += asker.at_times
        self.answer.runs_without_lines += asker.without_lines

    def _shown(self, place: Place, image: bytes, act: str = "") -> LineShown:
        source = ImageFiles(image).line(place.file, place.number) or b""
        return LineShown(place.file.decode(), place.number, shown_text(source), act)


def _object_at(image: bytes, path: bytes) -> str | None:
    """An object in words: its kind, mode and owners; nothing if it is absent."""
    line = node_line(image, path)
    if line is None:
        return None
    kind, _, mode, uid, gid = line.split(b" ")[:5]
    return f"{KIND_NAMES[kind.decode()]} {mode.decode()} {ImageFiles(image).owners(uid, gid)}"


def _essence(image: bytes, path: bytes) -> list[bytes]:
    """All of an object but its timestamps."""
    fields = (node_line(image, path) or b"").split(b" ")
    return fields[:5] + fields[6:]


def _names(finding: Finding, path: bytes) -> bool:
    """Whether the line of a finding has the path in its field Path, as it is written."""
    assert finding.source is not None
    fields = cut_line(finding.source).fields
    return len(fields) > PATH and printed(fields[PATH].of(finding.source).rstrip(b"/")) == path
