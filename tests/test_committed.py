"""Tests of the committed cases: what crates/probe/stdin and stdout reach, read from these two files alone."""

import re
import unittest
from collections import Counter
from functools import lru_cache

from compare import ROOT
from pgen_cases import FILE_CALLS, LOOKUP, PHASES, READ, ROWS, WHOLE_FILE
from pgen_header import Header
from pgen_record import RECORD_REFUSALS
from probe_cases import CALLS, POSSIBLE, STEP
from scale_counts import NAMED_HALVES, half_of
from test_laws import cases_in

LIST_RULES = (16, 23, 24, 25)
STEPS = re.compile(r" s (\d+) (\d+) o \S+ v (\d+)")


@lru_cache(maxsize=1)
def reached():
    """How often each call, and a step of rows, gave each number, and how it named the variant."""
    found = Counter()
    lines = (ROOT / "crates" / "probe" / "stdout").read_text().splitlines()
    cases = list(cases_in((ROOT / "crates" / "probe" / "stdin").read_bytes()))
    assert len(lines) == len(cases)
    for case, line in zip(cases, lines):
        words, head = line.split(), case.second if case.call == ROWS and case.second else case.first
        replies = [(case.call, int(words[0]), int(words[-1]), case.x)]
        replies += [(STEP, int(number), int(variant), step) for step, (number, _, variant) in enumerate(STEPS.findall(line))]
        for call, number, variant, asked in replies:
            found[call, number] += 1
            found["above 65,535", call, number] += variant > 65535
            found["elsewhere", number] += call == STEP and case.second != b""
            if number in RECORD_REFUSALS and call in (READ, LOOKUP, PHASES, STEP):
                found["itself" if variant == asked else "anchor", call, number] += 1
            if number == 8:
                found[half_of(head if call == ROWS else case.first, head, variant), call] += 1
            if number == 11 and call == LOOKUP:
                header = Header(case.first)
                found["sample" if asked < header.M else "both" if case.y >= header.N else "variant", variant == min(asked, header.M)] += 1
    return found


class Reached(unittest.TestCase):
    """What must be there."""

    def missing(self, keys):
        """Those of these keys that were not reached."""
        return [key for key in keys if not reached()[key]]

    def test_every_number(self):
        self.assertEqual(self.missing((call, number) for call, numbers in POSSIBLE.items() for number in [0, *numbers]), [])

    def test_no_other_number(self):
        other = [key for key in reached() if key[0] in CALLS and key[1] not in [0, *POSSIBLE[key[0]]]]
        self.assertEqual(other, [])

    def test_records(self):
        """The record's own fault and its anchor's, by every call on one variant and in steps."""
        self.assertEqual(self.missing((whose, call, number) for whose in ("itself", "anchor") for call in (READ, LOOKUP, PHASES, STEP)
                                      for number in LIST_RULES), [])
        for number in RECORD_REFUSALS:
            for whose in ("itself", "anchor"):
                self.assertTrue(any(reached()[whose, call, number] for call in (READ, LOOKUP, PHASES)), (whose, number))
                self.assertTrue(reached()[whose, STEP, number], (whose, number))

    def test_steps_elsewhere(self):
        """Steps on another file than that of the start."""
        self.assertEqual(self.missing(("elsewhere", number) for number in [0, *POSSIBLE[STEP]]), [])

    def test_types(self):
        """Two wrong types in one byte, of which the lower is named, and each alone."""
        self.assertEqual(self.missing((half, call) for half in NAMED_HALVES for call in [*FILE_CALLS, PHASES, ROWS]), [])
        self.assertEqual(self.missing((half, STEP) for half in NAMED_HALVES), [])

    def test_second_block(self):
        self.assertEqual(self.missing(("above 65,535", call, number) for call, number in ((READ, 23), (LOOKUP, 24), (WHOLE_FILE, 18))), [])
        self.assertGreater(sum(count for key, count in reached().items() if key[0] == "above 65,535" and key[2] == 8), 1)

    def test_lookups(self):
        self.assertEqual(self.missing((what, True) for what in ("sample", "variant", "both")), [])
        self.assertEqual([what for what in ("sample", "variant", "both") if reached()[what, False]], [])


if __name__ == "__main__":
    unittest.main()
