"""provision-image check: what is to be corrected in the configuration of a root, as for a CI job.

The runs are made in memory, and then the program is asked for its report.
Nothing is written.
"""

import argparse
import fnmatch
import sys
from collections.abc import Iterable
from dataclasses import replace

from .apply import do_runs
from .catalogue_form import ANSWER, ERROR, NOTE, TMPFILES, WARNING
from .configuration import Configuration, ImageFiles, Place
from .fields import PATH, cut_line
from .messages import Finding, Report, counted, judge
from .options import Session, add_input, add_run_options, begin
from .overlaps import Overlap, Trial, different_ages, filters_of, overlaps_in
from .runs import Ran

EXAMPLE = """example:
  provision-image check root.tar
  provision-image check --only '/etc/*' --only /usr/lib/tmpfiles.d/app.conf root.tar

exit status: 1 if there is an error or a warning; notes do not count without --strict
"""


def add_arguments(parser: argparse.ArgumentParser) -> None:
    """The arguments of the command."""
    add_input(parser)
    add_run_options(parser)
    parser.add_argument("--only", action="append", default=[], metavar="GLOB",
                        help="show only messages about configuration files whose path matches; all files are read")


def run(arguments: argparse.Namespace) -> int:
    """Check the configuration, and give the exit status."""
    session = begin(arguments)
    rans = do_runs(session)
    report = Report(arguments.strict, arguments.json)
    for ran in rans:
        report.show(chosen(messages_of(ran, arguments.strict), arguments.only))
    creating = next((ran for ran in rans if ran.run.tool == TMPFILES and "--create" in ran.run.options), None)
    if creating is not None:
        report.show(chosen(report_findings(session, creating, arguments.strict), arguments.only))
    report.finish()
    if not arguments.json and not any(report.counts[it] for it in (ERROR, WARNING, NOTE)):
        print("provision-image: nothing to correct", file=sys.stderr)
    return 1 if report.counts[ERROR] or report.counts[WARNING] else 0


def messages_of(ran: Ran, strict: bool) -> list[Finding]:
    """The messages of a run, explained."""
    return judge(ran.answer.messages, ran.before, strict, words=ran.words, status=ran.answer.status, after=ran.image)


def chosen(findings: Iterable[Finding], only: list[str]) -> list[Finding]:
    """The findings about files that match a pattern; all where there is none."""
    return [it for it in findings if not only or not it.file
            or any(fnmatch.fnmatchcase(file, glob) for glob in only for file in (it.file, *it.also_file()))]


def report_findings(session: Session, ran: Ran, strict: bool) -> list[Finding]:
    """What the report on a creating run says: hazards, and overlaps with what they are."""
    words = [TMPFILES, "--report", *filters_of(ran.run), *(("--", *ran.run.files) if ran.run.files else ())]
    answer = session.program.run(words, ran.before, time=session.now)
    dropped = {(it.file, it.line) for it in messages_of(ran, strict) if it.code == "Duplicate"}
    pairs = [it for it in overlaps_in(answer.messages)
             if (it.second.file.decode(), it.second.number) not in dropped]
    findings = [it for it in judge(answer.messages, ran.before, strict, words=words, status=answer.status)
                if it.code not in ("Overlap", "Verdict")]
    said = _Overlaps(ran.before, strict, tuple(words))
    trial = Trial(session.program, ran.run, ran.image, session.now)
    undone = trial.quarrels(pairs)
    lines_undone = {(it.first, it.second) for it in undone}
    others = [it for it in pairs if (it.first, it.second) not in lines_undone]
    aged = list(different_ages(Configuration(ran.before, TMPFILES), others))
    findings += [said.finding(it, WARNING, "Quarrel", "this line and {other} undo each other at {path}",
                              "Remove one of the lines, or let both ask for the same.") for it in undone]
    findings += [said.finding(it, WARNING, "Ages", "this line and {other} give {path} different ages; the first counts",
                              "Remove one of the ages.") for it in aged]
    findings += [said.finding(it, ANSWER, "Overlap", "harmless: this line and {other} share {path}", "")
                 for it in others if it not in aged]
    if trial.untried:
        text = f"{counted(trial.untried, 'overlap')} could not be tried, and counted as harmless"
        findings.append(Finding(NOTE, "Untried", text, "", text, words=tuple(words)))
    return findings


class _Overlaps:
    """Makes findings of overlaps."""

    def __init__(self, image: bytes, strict: bool, words: tuple[str, ...]) -> None:
        self._files, self._strict, self._words = ImageFiles(image), strict, words

    def _line(self, place: Place) -> bytes:
        return self._files.line(place.file, place.number) or b""

    def finding(self, pair: Overlap, severity: str, code: str, text: str, advice: str) -> Finding:
        """The finding of an overlap, at its second line; of a harmless one the lines are not shown."""
        path = pair.path.decode()
        message = f"overlap {pair.first} {pair.second} at {path}"
        sentence = text.format(other=pair.first, path=path)
        finding = Finding(severity, code, sentence, advice, message, pair.second.file.decode(), pair.second.number,
                          words=self._words, also=(str(pair.first), self._line(pair.first)))
        if severity == ANSWER:
            return finding
        line = self._line(pair.second)
        fields = cut_line(line).fields
        return replace(finding, severity=ERROR if self._strict else severity, source=line,
                       span=fields[PATH] if len(fields) > PATH else None)
