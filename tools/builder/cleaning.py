"""When a path would be cleaned or removed, and by which line.

A run of the program is a function of its image, its words and its time. So
the first time at which a path goes is found by asking the program at other
times, and the line that takes it by asking it without single lines.
"""

from collections.abc import Callable, Sequence
from dataclasses import dataclass, field

from .catalogue_form import TMPFILES
from .configuration import Configuration, Place, has_path
from .likely import SECOND, likely_lines, likely_times
from .program import Program
from .progress import Bar

HOUR = 3600 * SECOND
LAST = 253402207200 * SECOND  # 9999-12-30T22:00:00Z, the last time that the program reads
MOST_RUNS = 60
CLEAN, REMOVE = [TMPFILES, "--clean"], [TMPFILES, "--remove", "--boot"]


class TooManyRuns(Exception):
    """The most runs that a question may take are done."""


@dataclass
class Asker:
    """Asks whether a path goes in a run, with all lines or with some of them, and counts the runs."""

    program: Program
    image: bytes
    path: bytes  # as the image prints it
    left: int = MOST_RUNS
    at_times: int = 0  # runs at other times
    without_lines: int = 0  # runs without some lines
    configuration: Configuration = field(init=False)
    bar: Bar = field(init=False)

    def __post_init__(self) -> None:
        self.configuration = Configuration(self.image, TMPFILES)
        self.bar = Bar("asking provision", self.left)

    def goes(self, words: Sequence[str], time: int) -> bool:
        """Whether the path is absent after a run."""
        self.at_times += 1
        return self._ask(words, time, self.image)

    def goes_with(self, words: Sequence[str], time: int, keeps: Callable[[Place], bool]) -> bool:
        """Whether the path is absent after a run with the lines that are kept."""
        self.without_lines += 1
        return self._ask(words, time, self.configuration.image_with(keeps))

    def _ask(self, words: Sequence[str], time: int, image: bytes) -> bool:
        if self.left == 0:
            raise TooManyRuns
        self.left -= 1
        self.bar.add(1)
        answer = self.program.run(list(words), image, time=time)
        return answer.image is not None and not has_path(answer.image, self.path)


def first_time(asker: Asker, words: Sequence[str], now: int) -> int | None:
    """The first whole second at which a run takes the path: 0 if at any time, nothing if never."""
    if not asker.goes(words, LAST):
        return None
    low, high = _between(asker, words, [now // SECOND * SECOND, *likely_times(asker.configuration, asker.path)])
    if low is None and high is None and asker.goes(words, 0):
        return 0
    if high is None:
        low, high = _later(asker, words, low or 0)
    elif not asker.goes(words, high - SECOND):
        return high
    elif low is None:
        low, high = _earlier(asker, words, high - SECOND)
    while high - low > SECOND:
        middle = (low + high) // 2 // SECOND * SECOND
        if asker.goes(words, middle):
            high = middle
        else:
            low = middle
    return high


def _between(asker: Asker, words: Sequence[str], times: Sequence[int]) -> tuple[int | None, int | None]:
    """The last of some times at which the path stays, and the first at which it goes; nothing where there is none."""
    times = sorted(time for time in set(times) if SECOND <= time < LAST)
    low, high = -1, len(times)
    while high - low > 1:
        middle = (low + high) // 2
        if asker.goes(words, times[middle]):
            high = middle
        else:
            low = middle
    return (times[low] if low >= 0 else None), (times[high] if high < len(times) else None)


def _later(asker: Asker, words: Sequence[str], low: int) -> tuple[int, int]:
    """Two times from a time on: at the first the path stays, at the second it goes."""
    step = HOUR
    while low + step < LAST:
        if asker.goes(words, low + step):
            return low, low + step
        low, step = low + step, step * 4
    return low, LAST


def _earlier(asker: Asker, words: Sequence[str], high: int) -> tuple[int, int]:
    """Two times up to a time: at the first the path stays, at the second it goes; both 0 if it goes at any time."""
    if asker.goes(words, 0):
        return 0, 0
    step = HOUR
    while high - step > 0:
        if not asker.goes(words, high - step):
            return high - step, high
        high, step = high - step, step * 4
    return 0, high


@dataclass(frozen=True, slots=True)
class Blame:
    """The line that decides, and whether it does so alone: without it the path would fare otherwise."""

    place: Place
    alone: bool


def taking_line(asker: Asker, words: Sequence[str], time: int, stays_at: int | None = None) -> Blame | None:
    """The line by which a run takes the path at a time, and not yet at another time if that is given."""
    def fares_alike(keeps: Callable[[Place], bool]) -> bool:
        goes_before = stays_at is not None and asker.goes_with(words, stays_at, keeps)
        return not goes_before and asker.goes_with(words, time, keeps)

    for place in likely_lines(asker.configuration, asker.path)[:2]:
        if not fares_alike(lambda it, place=place: it != place):
            return Blame(place, True)
    place = _turning_point(sorted_places(asker.configuration), lambda kept: fares_alike(lambda it: it in kept))
    return None if place is None else Blame(place, not fares_alike(lambda it: it != place))


def sparing_line(asker: Asker, words: Sequence[str], time: int) -> Blame | None:
    """The line of type x or X for which a run at a time leaves the path; nothing if it stays without them too."""
    spared = [place for place, line in asker.configuration.lines.items() if line.lstrip()[:1] in (b"x", b"X")]
    if not spared or not asker.goes_with(words, time, lambda it: it not in spared):
        return None
    place = _turning_point(spared, lambda left_out: asker.goes_with(words, time, lambda it: it not in left_out))
    if place is None:
        return None
    return Blame(place, asker.goes_with(words, time, lambda it: it != place))


def _turning_point(places: Sequence[Place], holds: Callable[[set[Place]], bool]) -> Place | None:
    """A place such that `holds` of the places up to it, and not of those before it; nothing if not of all."""
    if not places or not holds(set(places)):
        return None
    low, high = 0, len(places)  # it does not hold of the first `low` places, and holds of the first `high`
    while high - low > 1:
        middle = (low + high) // 2
        if holds(set(places[:middle])):
            high = middle
        else:
            low = middle
    return places[high - 1]


def sorted_places(configuration: Configuration) -> list[Place]:
    """All lines in the order in which they are read: files by their names, whatever their folders."""
    return sorted(configuration.lines, key=lambda it: (it.file.rsplit(b"/", 1)[1], it.file, it.number))
