"""Tests of the comparison at scale: it is the same again for a seed, and it sees a wrong reply."""

import unittest

import scale
from probe_cases import POSSIBLE
from scale_counts import Counts
from scale_files import cases_of
from scale_teeth import CASES_OF_A_FILE, ROOT, WRONG

NUMBERS = range(3, 12)


class Scale(unittest.TestCase):
    """The run without the probe: its lines are made up here."""

    def disagreements(self, change):
        """What a portion reports when the probe's lines are the right ones, changed."""
        portion = scale.Portion(5, NUMBERS)
        lines = change([want for _, _, want in portion.asked])
        self.addCleanup(setattr, scale, "run", scale.run)
        scale.run = lambda name, data: "".join(line + "\n" for line in lines).encode()
        return portion.finish().disagreements

    def test_right_lines(self):
        self.assertEqual(self.disagreements(list), [])

    def test_a_wrong_line(self):
        second = CASES_OF_A_FILE
        reports = self.disagreements(lambda lines: lines[:second] + ["0 1 16 1 1 0"] + lines[second + 1:])
        self.assertEqual([(number, what) for number, what, _, _ in reports], [(4, "header check")])

    def test_a_wrong_variant(self):
        reports = self.disagreements(lambda lines: [lines[0].rpartition(" ")[0] + " 99"] + lines[1:])
        self.assertEqual([(number, what) for number, what, _, _ in reports], [(3, "header check")])

    def test_a_missing_line(self):
        self.assertEqual([what for _, what, _, _ in self.disagreements(lambda lines: lines[:-1])][-1], "number of lines")

    def test_same_seed_same_cases(self):
        for number in NUMBERS:
            self.assertEqual(cases_of(5, number), cases_of(5, number))
        self.assertNotEqual(cases_of(5, 3), cases_of(6, 3))

    def test_every_wrong_rule_can_be_put_in(self):
        for what, name, old, new, _ in WRONG:
            self.assertEqual((ROOT / "tests" / name).read_text().count(old), 1, what)
            self.assertNotEqual(old, new)

    def test_what_is_not_reached_is_told(self):
        counts = Counts()
        wanted = sum(1 + len(numbers) for numbers in POSSIBLE.values()) + len(list(counts.wanted()))
        self.assertEqual(len(list(counts.missing())), wanted)
        counts.of["call", 2, 17] += 1
        self.assertEqual(len(list(counts.missing())), wanted - 1)


if __name__ == "__main__":
    unittest.main()
