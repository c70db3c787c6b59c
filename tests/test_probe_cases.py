"""Tests of the probe's input and output form."""

import random
import unittest

import probe_cases
from pgen_cases import READ, WRITE_PHASED, Case, random_case
from pgen_phase_cases import random_phase_case
from pgen_row_cases import random_row_case
from test_reference import A


def taken_apart(data):
    """A case from its input bytes."""
    numbers = [int.from_bytes(data[a:b], "little")
               for a, b in ((1, 9), (9, 17), (17, 21), (21, 25), (25, 29), (29, 33))]
    x, y, first, second, output, work = numbers
    third = work if data[0] == WRITE_PHASED else 0
    middle = 33 + first
    last = middle + second
    assert len(data) == last + third
    return Case(data[0], x, y, data[33:middle], data[middle:last], output, work - third, data[last:])


class Form(unittest.TestCase):
    """The form of cases and lines."""

    def test_line(self):
        case = Case(READ, x=1, first=A, output=6, work=7)
        line = probe_cases.line_of(*probe_cases.reply_to(case))
        self.assertEqual(line, "0 0 o 0002020301a5 w 00000000005a5a v 0")

    def test_lines_of_every_call(self):
        expected = {
            Case(1, first=A): "0 0 16 3 5 64 v 0",
            Case(1, first=A[:20]): "6 20 0 0 0 0 v 3",
            Case(2, first=A, work=6): "0 0 16 3 5 64 w 00000000005a v 0",
            Case(2, first=b"", work=1): "1 0 0 0 0 0 w 5a v 0",
            Case(3, first=A, work=5): "10 0 o - w 5a5a5a5a5a v 3",
            Case(4, x=1, y=3, first=A, work=5): "0 0 3 w 0000000000 v 0",
            Case(4, x=1, y=5, first=A, work=5): "11 0 0 w 5a5a5a5a5a v 1",
            Case(5, x=2, first=A): "0 0 3 p 010203 v 0",
            Case(5, x=3, first=A): "11 0 0 p - v 3",
            Case(6, first=bytes([0, 1, 2, 3, 0]), output=3): "0 0 2 o e400a5 v 0",
            Case(6, x=5, first=b"\0", output=1): "19 0 0 o a5 v 0",
            Case(7, first=A, second=b"\2", work=5):
                "0 0 f " + A[:20].hex() + "30" + A[21:].hex() + " w 0000000000 v 0",
            Case(7, first=A, second=b"\x08", work=5): "21 0 f " + A.hex() + " w 5a5a5a5a5a v 3",
            Case(8, x=1, first=A, output=6, work=7): "0 0 o 0000000000a5 w 00000000005a5a v 0",
            Case(8, x=3, first=A, output=5, work=5): "11 0 o a5a5a5a5a5 w 5a5a5a5a5a v 3",
            Case(9, first=bytes([0, 1, 2, 3, 0]), output=5, third=bytes([0, 2, 0, 0, 0])): "0 0 4 o e4000001a5 v 0",
            Case(9, x=2, first=b"\1", second=b"\0", output=4, third=b"\3"): "22 0 0 o a5a5a5a5 v 0",
        }
        self.check_lines(expected)

    def test_lines_of_rows(self):
        expected = {
            Case(23, x=4, first=A, output=6, work=7):
                "0 0 s 0 0 o 0001020300a5 v 0 s 0 0 o 0002020301a5 v 0 s 0 0 o 0000030000a5 v 0 s 11 0 o 0000030000a5 v 3"
                " w 00000300005a5a v 0",
            Case(23, first=A, work=5): "0 0 w 5a5a5a5a5a v 0",
            Case(23, x=2, first=A, work=5): "0 0 s 10 0 o - v 3 s 10 0 o - v 3 w 5a5a5a5a5a v 0",
            Case(23, x=2, first=A[:33], output=5, work=2): "9 33 w 5a5a v 3",
            Case(23, x=2, first=A, output=5): "10 0 w - v 3",
            Case(23, x=3, first=A[:30], second=A, output=5, work=5):
                "0 0 s 0 0 o 0001020300 v 0 s 9 30 o 0001020300 v 3 s 9 30 o 0001020300 v 3 w 0001020300 v 0",
            Case(23, x=1, first=A[:20] + b"\2" + A[21:], second=A, output=5, work=5):
                "0 0 s 8 20 o a5a5a5a5a5 v 0 w 5a5a5a5a5a v 0",
            Case(23, x=1, first=A, second=A[:11], output=5, work=5): "1 11 w 5a5a5a5a5a v 0",
            Case(23, x=2, first=A[:30] + b"\0" + A[31:], output=5, work=5):
                "0 0 s 0 0 o 0001020300 v 0 s 23 30 o 0001020300 v 1 w 0001020300 v 0",
        }
        self.check_lines(expected)

    def check_lines(self, expected):
        """Cases with their lines."""
        for case, line in expected.items():
            self.assertEqual(probe_cases.line_of(*probe_cases.reply_to(case)), line)

    def test_replies(self):
        case = Case(23, x=3, first=A[:30] + b"\0" + A[31:], output=5, work=5)
        self.assertEqual(list(probe_cases.replies_of(case, *probe_cases.reply_to(case))),
                         [(23, 0, 0, 0), (256, 0, 0, 0), (256, 23, 30, 1), (256, 0, 0, 0)])

    def test_input(self):
        rng = random.Random(9)
        for _ in range(300):
            case = rng.choice([random_case, random_case, random_row_case, random_phase_case])(rng)
            self.assertEqual(taken_apart(probe_cases.input_bytes(case)), case)
            used = {1: "", 2: "work", 3: "x output work", 4: "x y work", 5: "x",
                    6: "x y second output", 7: "second work", 8: "x output work", 9: "x y second output third",
                    23: "x second output work"}[case.call].split()
            for name in ("x", "y", "second", "output", "work", "third"):
                if name not in used:
                    self.assertFalse(getattr(case, name), case)

    def test_same_seed_same_cases(self):
        for any_case in (random_case, random_row_case, random_phase_case):
            one, other = ([any_case(rng) for _ in range(30)] for rng in map(random.Random, (4, 4)))
            self.assertEqual(one, other)


if __name__ == "__main__":
    unittest.main()
