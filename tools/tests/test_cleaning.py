"""The search for the time at which a path goes, and for the line that takes it, over a program made of a function."""

import base64
import random
import unittest
from collections.abc import Callable

from tests.helper import image

from builder.cleaning import CLEAN, LAST, MOST_RUNS, REMOVE, Asker, TooManyRuns, first_time  # noqa: E402
from builder.cleaning import sparing_line, taking_line  # noqa: E402
from builder.configuration import Configuration, Place  # noqa: E402
from builder.likely import SECOND, age_of  # noqa: E402
from builder.program import Answer  # noqa: E402

FILE = b"/etc/tmpfiles.d/a.conf"
NODE = b"f /x 0644 0 0 0,0,0,0 - - - -"
NOW = 1767225600 * SECOND


class FakeProgram:
    """Takes /x away where a function of the kept lines and the time says so."""

    def __init__(self, goes: Callable[[set[bytes], int], bool]) -> None:
        self._goes = goes
        self.runs = 0

    def run(self, words: list[str], given: bytes, *, time: int) -> Answer:
        self.runs += 1
        lines = set(Configuration(given, "systemd-tmpfiles").lines.values())
        return Answer(0, [], given.replace(NODE + b"\n", b"") if self._goes(lines, time) else given)


def asker_of(goes: Callable[[set[bytes], int], bool], lines: list[bytes] = ()) -> Asker:
    text = base64.b64encode(b"\n".join(lines) + b"\n")
    given = image(b"d /etc 0755 0 0 0,0,0,0 - - - -", b"d /etc/tmpfiles.d 0755 0 0 0,0,0,0 - - - -",
                  b"f " + FILE + b" 0644 0 0 0,0,0,0 - - - " + text, NODE)
    return Asker(FakeProgram(goes), given, b"/x")


class Times(unittest.TestCase):
    def test_the_first_second_is_found(self):
        draw = random.Random(5)
        for _ in range(60):
            end = draw.choice((draw.randrange(LAST), NOW + draw.randrange(-10**13, 10**14)))
            asker = asker_of(lambda lines, time, end=end: time > end)
            first = first_time(asker, CLEAN, NOW + draw.randrange(SECOND))
            self.assertEqual(first, (end // SECOND + 1) * SECOND)
            self.assertLessEqual(asker.at_times, MOST_RUNS)

    def test_an_age_that_is_usual_takes_few_runs(self):
        for days in (1, 3, 10, 30):
            asker = asker_of(lambda lines, time, days=days: time > NOW + days * 86400 * SECOND)
            self.assertEqual(first_time(asker, CLEAN, NOW), NOW + (days * 86400 + 1) * SECOND)
            self.assertLess(asker.at_times, 32)

    def test_ages_of_lines_are_tried_first(self):
        day = 86400 * SECOND
        lines = [b"d /%d - - - %dd" % (number, number) for number in range(1, 30)]
        for line, age in ((b"d / - - - 10d", 10 * day), (b"d / - - - mC:1w2d3h", 9 * day + 3 * 3600 * SECOND)):
            asker = asker_of(lambda lines, time, age=age: time > age, [*lines, line])
            self.assertEqual(first_time(asker, CLEAN, NOW), age + SECOND)
            self.assertLess(asker.at_times, 9)

    def test_ages(self):
        self.assertEqual([age_of(text) for text in (b"1w2d", b"~aBc:5", b"0", b"3month", b"-", b"500ms")],
                         [9 * 86400 * SECOND, 5 * SECOND, 0, None, None, 500000])

    def test_never_and_always(self):
        asker = asker_of(lambda lines, time: False)
        self.assertEqual((first_time(asker, CLEAN, NOW), asker.at_times), (None, 1))
        self.assertEqual(first_time(asker_of(lambda lines, time: True), CLEAN, NOW), 0)
        self.assertEqual(first_time(asker_of(lambda lines, time: True), CLEAN, 0), 0)

    def test_it_ends_after_the_most_runs(self):
        asker = asker_of(lambda lines, time: time > NOW + 10**14)
        asker.left = 10
        with self.assertRaises(TooManyRuns):
            first_time(asker, CLEAN, NOW)


class Lines(unittest.TestCase):
    LINES = [b"d /%d" % number for number in range(150)]

    def test_one_line_of_many(self):
        for number in (0, 1, 77, 149):
            line = self.LINES[number]
            asker = asker_of(lambda lines, time, line=line: line in lines, self.LINES)
            blame = taking_line(asker, REMOVE, NOW)
            self.assertEqual((blame.place, blame.alone), (Place(FILE, number + 1), True))
            self.assertLess(asker.without_lines, 12)

    def test_a_likely_line_is_tried_first(self):
        lines = [*self.LINES, b"d / - - - 10d"]
        asker = asker_of(lambda lines, time: b"d / - - - 10d" in lines, lines)
        self.assertEqual((taking_line(asker, REMOVE, NOW).place.number, asker.without_lines), (151, 1))

    def test_two_lines_that_both_take_it(self):
        asker = asker_of(lambda lines, time: bool({b"d /3", b"d /9"} & lines), self.LINES)
        blame = taking_line(asker, REMOVE, NOW)
        self.assertEqual((blame.place.number, blame.alone), (4, False))

    def test_a_line_that_only_changes_the_time(self):
        long, short = b"d /x - - - 20d", b"d / - - - 5d"
        asker = asker_of(lambda lines, time: time > NOW + (20 if long in lines else 5), [short, long])
        blame = taking_line(asker, CLEAN, NOW + 20 + SECOND, NOW + 20)
        self.assertEqual((blame.place.number, blame.alone), (2, True))

    def test_a_line_that_spares_it(self):
        lines = [b"d / - - - 5d", b"x /a", b"x /x", b"X /b"]
        asker = asker_of(lambda lines, time: b"x /x" not in lines, lines)
        blame = sparing_line(asker, CLEAN, LAST)
        self.assertEqual((blame.place.number, blame.alone), (3, True))
        self.assertIsNone(sparing_line(asker_of(lambda lines, time: False, lines), CLEAN, LAST))


class Configurations(unittest.TestCase):
    def test_lines_that_are_left_out_keep_the_numbers_of_the_others(self):
        given = asker_of(lambda lines, time: False, [b"# comment", b"d /a", b"", b"d /b"]).image
        configuration = Configuration(given, "systemd-tmpfiles")
        self.assertEqual(configuration.lines, {Place(FILE, 2): b"d /a", Place(FILE, 4): b"d /b"})
        less = Configuration(configuration.image_with(lambda it: it.number != 2), "systemd-tmpfiles")
        self.assertEqual(less.lines, {Place(FILE, 4): b"d /b"})
        self.assertEqual(configuration.image_with(lambda it: True), given)

    def test_only_files_that_the_tool_reads(self):
        given = image(*(b"f " + path + b" 0644 0 0 0,0,0,0 - - - ZCAvYQo=" for path in (
            b"/etc/sysusers.d/a.conf", b"/etc/tmpfiles.d/a.txt", b"/etc/tmpfiles.d/b/a.conf",
            b"/usr/lib/tmpfiles.d/a.conf", b"/usr/local/lib/tmpfiles.d/a.conf", b"/var/lib/tmpfiles.d/a.conf")))
        self.assertEqual([place.file for place in Configuration(given, "systemd-tmpfiles").lines],
                         [b"/usr/lib/tmpfiles.d/a.conf", b"/usr/local/lib/tmpfiles.d/a.conf"])


if __name__ == "__main__":
    unittest.main()
