"""The answer of provision-image why, and its text."""

from dataclasses import dataclass, field


@dataclass
class LineShown:
    """A line of configuration: where it is, and what it does."""

    file: str
    line: int
    source: str
    act: str = ""

    def rows(self, head: str) -> list[str]:
        """Its place and its text."""
        return [f"  {head} {self.file}:{self.line}", f"      {self.source}"]


@dataclass
class Fate:
    """Whether a path goes in a run, when, and by which line."""

    how: str  # cleaned, or removed
    happens: bool = False
    time: str | None = None  # the first second at which it is cleaned; nothing if it is cleaned at any time
    line: LineShown | None = None  # the line that takes it, or for which it stays
    line_alone: bool = False  # whether it would fare otherwise without this line
    complete: bool = True  # false if the most runs were done before all was known
    runs: int = 0


@dataclass
class WhyAnswer:
    """What is known of a path."""

    path: str
    in_root: str | None = None
    after_runs: str | None = None
    acts: list[LineShown] = field(default_factory=list)
    changing_runs: list[str] = field(default_factory=list)
    messages: list[str] = field(default_factory=list)
    fates: list[Fate] = field(default_factory=list)
    runs: int = 0
    runs_at_times: int = 0
    runs_without_lines: int = 0


ACTS = {"makes": "made by", "changes": "changed by", "removes": "removed by",
        "would make": "there already, and else made by"}


def text_of(answer: WhyAnswer) -> str:
    """The answer as people read it."""
    rows = [answer.path, f"  in the root: {answer.in_root or 'absent'}",
            f"  after the runs: {answer.after_runs or 'absent'}"]
    for line in answer.acts:
        rows += line.rows(ACTS[line.act])
    rows += [f"  changed by the run `{run}`" for run in answer.changing_runs]
    if not answer.acts and not answer.changing_runs:
        rows.append("  no line makes or changes it")
    rows += [f"  {message}" for message in answer.messages]
    for fate in answer.fates:
        rows += fate_rows(fate)
    rows.append(f"  ({runs_text(answer)})")
    return "\n".join(rows)


def runs_text(answer: WhyAnswer) -> str:
    """How often the program was asked, and for what."""
    others = answer.runs_at_times + answer.runs_without_lines
    text = f"provision was run {answer.runs} times: {answer.runs - others} for the runs and the lines that act"
    if answer.runs_at_times:
        text += f", {answer.runs_at_times} to clean and remove at one time or another"
    if answer.runs_without_lines:
        text += f", {answer.runs_without_lines} without some of the lines"
    return text


def fate_rows(fate: Fate) -> list[str]:
    """When and by which line a path goes."""
    if not fate.complete:
        return [f"  {fate.how}: not known after {fate.runs} runs of the program"]
    if not fate.happens:
        return _staying_rows(fate)
    when = f"{fate.how} {_time_text(fate)}"
    if fate.line is None:
        return [f"  {when}, by several lines together"]
    rows = fate.line.rows(f"{when} by")
    return rows + ([] if fate.line_alone else ["      without this line another one would take it at that time"])


def _time_text(fate: Fate) -> str:
    if fate.how == "removed":
        return "at boot (--remove --boot)"
    return f"from {fate.time} on" if fate.time else "by each --clean"


def _staying_rows(fate: Fate) -> list[str]:
    if fate.how == "removed":
        return ["  not removed at boot"]
    if fate.line is None:
        return ["  never cleaned: no line gives an age for it"]
    rows = fate.line.rows("never cleaned, because of")
    return rows + ([] if fate.line_alone else ["      without this line another one would spare it"])
