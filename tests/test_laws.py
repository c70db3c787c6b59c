"""Tests of the laws that the built probe is tried with: the independent program obeys them, and a program that does not is seen."""

import contextlib
import io
import re
import unittest
from itertools import count

from compare import Tally
from pgen_cases import FLIP, LOOKUP, PHASES, READ, ROWS, VIEW, WHOLE_FILE, WRITE_PHASED
from pgen_reference import listing
from phase_laws import check_phase_examples, check_phase_laws, check_readings, check_writing, check_writing_again
from probe_cases import line_of, reply_to
from program_laws import check_examples, check_flips, check_rows
from test_probe_cases import taken_apart
from variant_laws import check_header_laws, check_record_laws, check_variant_examples, check_variant_laws


def cases_in(data):
    """The cases of an input."""
    at = 0
    while at < len(data):
        head = data[at:at + 33]
        size = 33 + int.from_bytes(head[17:21], "little") + int.from_bytes(head[21:25], "little")
        size += int.from_bytes(head[29:33], "little") if head[0] == WRITE_PHASED else 0
        yield taken_apart(data[at:at + size])
        at += size


def listed(file):
    """The listing program."""
    return listing(file).encode()


def number_of(line):
    """The refusal of a line."""
    return int(line.split()[0])


def renamed(line, variant):
    """The line with another variant of the call's own reply."""
    return f"{line.rpartition(' ')[0]} {variant}"


def asked_for(case, line):
    """A record's fault is that of the variant asked for, though its anchor has it."""
    return renamed(line, case.x) if case.call in (READ, PHASES, LOOKUP) and number_of(line) > 11 else line


def leaning_in_steps(case, line):
    """The same in steps of rows, by a state that does not know whose record was refused."""
    variants = count()

    def step(found):
        variant = next(variants)
        return f"{found[1]}{variant if int(found[2]) > 11 else found[3]}"
    return re.sub(r"(s (\d+) \d+ o \S+ v )(\d+)", step, line)


def one_higher(case, line):
    """A type's fault is the next variant's."""
    return renamed(line, int(line.split()[-1]) + 1) if number_of(line) == 8 else line


def M_for_a_sample(case, line):
    """A sample that is not there names M."""
    return renamed(line, 3) if case.call == LOOKUP and number_of(line) == 11 else line


def asked_for_though_not_there(case, line):
    """A variant that is not there is named."""
    return renamed(line, case.x) if number_of(line) == 11 else line


def none_for_M(case, line):
    """Where no variant is concerned, 0."""
    return renamed(line, 0) if number_of(line) in (5, 6, 7, 9, 10, 21) else line


def M_for_none(case, line):
    """M in 4 too."""
    return renamed(line, 3) if number_of(line) == 4 else line


def one_number_for_lists(case, line):
    """16 as before Ask 2."""
    return re.sub(r"^2[345] ", "16 ", line)


def rising_and_below_exchanged(case, line):
    """23 for 24, and 24 for 23."""
    return re.sub(r"^(2[34]) ", lambda found: f"{47 - int(found[1])} ", line)


WRONG_VARIANTS = [asked_for, leaning_in_steps, one_higher, M_for_a_sample, asked_for_though_not_there, none_for_M, M_for_none, one_number_for_lists,
                  rising_and_below_exchanged]


class Laws(unittest.TestCase):
    """The probe is the independent program, right or wrong in its lines."""

    def failed(self, check, *words, call=None, old="", new="", wrong=lambda case, line: line):
        """How many comparisons fail where lines of a call have one text for another, or where lines are made wrong."""
        def run(name, data):
            lines = []
            for case in cases_in(data):
                line = wrong(case, line_of(*reply_to(case)))
                lines.append(line.replace(old, new, 1) if case.call == call else line)
            return "".join(line + "\n" for line in lines).encode()
        tally = Tally()
        with contextlib.redirect_stdout(io.StringIO()):
            check(tally, run, *words)
        self.assertGreater(tally.passed + tally.failed, 0)
        return tally.failed

    def test_right_lines(self):
        self.assertEqual(self.failed(check_examples), 0)
        self.assertEqual(self.failed(check_flips, 3), 0)
        self.assertEqual(self.failed(check_rows, 3), 0)
        self.assertEqual(self.failed(check_phase_examples), 0)
        self.assertEqual(self.failed(check_phase_laws, 3), 0)
        self.assertEqual(self.failed(check_variant_examples, listed), 0)
        self.assertEqual(self.failed(check_variant_laws, 3), 0)

    def test_wrong_lines(self):
        self.assertEqual(self.failed(check_examples, call=ROWS, old="s 11 0", new="s 0 0"), 1)
        self.assertEqual(self.failed(check_rows, 3, call=ROWS, old=" s 18 ", new=" s 17 "), 1)
        self.assertEqual(self.failed(check_rows, 3, call=READ, old="0 0 o 00", new="0 0 o 01"), 1)

    def test_wrong_lines_of_phases(self):
        self.assertEqual(self.failed(check_phase_examples, call=PHASES, old="18 26", new="0 0"), 1)
        self.assertEqual(self.failed(check_phase_examples, call=WRITE_PHASED, old="22 0", new="20 0"), 1)
        for check, call, old, new in ((check_readings, PHASES, "02", "01"), (check_readings, FLIP, "01 w", "00 w"), (check_writing, PHASES, "02", "01"),
                                      (check_writing, READ, "01", "02"), (check_writing, WRITE_PHASED, "0 0 ", "0 1 "),
                                      (check_writing_again, PHASES, "02", "01"), (check_writing_again, WRITE_PHASED, "00", "01")):
            self.assertGreater(self.failed(check, 3, call=call, old=old, new=new), 0, (check.__name__, call, old, new))

    def test_wrong_variants(self):
        for wrong in WRONG_VARIANTS:
            self.assertGreater(self.failed(check_variant_examples, listed, wrong=wrong), 0, wrong.__name__)
        for check, wrong in ((check_record_laws, asked_for), (check_header_laws, one_higher), (check_header_laws, none_for_M),
                             (check_header_laws, M_for_none)):
            self.assertGreater(self.failed(check, 3, wrong=wrong), 0, wrong.__name__)
        self.assertEqual(self.failed(check_rows, 3, wrong=leaning_in_steps), 1)

    def test_calls_that_disagree(self):
        for check, call in ((check_record_laws, WHOLE_FILE), (check_record_laws, FLIP), (check_record_laws, LOOKUP), (check_header_laws, VIEW)):
            self.assertGreater(self.failed(check, 3, wrong=lambda case, line: renamed(line, 0) if case.call == call else line), 0, call)

    def test_listing_that_names_a_variant(self):
        self.assertGreater(self.failed(check_variant_examples, lambda file: listed(file)[:-1] + b" 1\n"), 0)


if __name__ == "__main__":
    unittest.main()
