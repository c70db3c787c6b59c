"""Tests of the rows: file A and states made by hand, the law that a walk gives what reads give, and what the cases reach."""

import random
import unittest
from itertools import islice

import pgen_header
import pgen_reference as reference
from compare import COMMITTED
from pgen_generate import random_file
from pgen_header import leans
from pgen_parts import join_file
from pgen_record import RECORD_REFUSALS
from pgen_record_damage import RECORD_FAULTS
from pgen_row_cases import GREATEST_START, GREATEST_STEPS, row_cases, with_leaning_ones
from pgen_row_damage import damaged, file_B, row_damage_cases
from pgen_rows import Rows, next_row, start_rows
from phase_laws import file_of
from probe_cases import POSSIBLE, ROWS, STEP, refusals_of, replies_of, reply_to
from scale_counts import KINDS, Counts
from test_calls import plain
from test_reference import A, changed, digits

OUTPUT, WORK = b"\xa5", b"\x5a"
FIRST = Rows(0x10, 3, 5, 0x40, 0, 25)
SECOND = FIRST._replace(variant=1, start=27)
THIRD = FIRST._replace(variant=2, start=31)
PAST = FIRST._replace(variant=3, start=34)


class Walks(unittest.TestCase):
    """Walks worked out by hand; outputs are one byte longer than they need be, work areas two."""

    def check(self, file, *steps):
        """Each step's refusal, place, variant, later state, row in the output and row in the work area."""
        *reply, state = start_rows(file, WORK * 7)
        self.assertEqual((reply, state.variant), ([0, 0, 0], 0))
        output, work = OUTPUT * 6, WORK * 7
        for number, place, variant, later, row, kept in steps:
            got = next_row(state, file, output, work)
            state, output, work = later, row + OUTPUT, kept + WORK * 2
            self.assertEqual(got, (number, place, variant, state, output, work))

    def test_file_A(self):
        self.assertEqual(start_rows(A, WORK * 5), (0, 0, 0, FIRST))
        one, two, three = map(digits, ("01230", "02231", "00300"))
        self.check(A, (0, 0, 0, SECOND, one, one), (0, 0, 0, THIRD, two, one), (0, 0, 0, PAST, three, three),
                   (11, 0, 3, PAST, three, three), (11, 0, 3, PAST, three, three))
        one, two = digits("01230"), digits("20031")
        self.check(changed(A, {20: "30"}), (0, 0, 0, SECOND, one, one), (0, 0, 0, THIRD, two, one))

    def test_plain_mode(self):
        state = Rows(0x02, 2, 5, 0xc0, 0, 13)
        one, two = digits("01230"), digits("32100")
        self.check(plain(2, 5, "c0", "03e4001b00"), (0, 0, 0, state._replace(variant=1, start=15), one, one),
                   (0, 0, 0, state._replace(variant=2, start=17), two, two))

    def test_refused_anchor(self):
        none, three = OUTPUT * 5, digits("00300")
        kept = {"refusal": 18, "place": 26}
        self.check(changed(A, {26: "04"}), (18, 26, 0, SECOND._replace(**kept), none, bytes(5)),
                   (18, 26, 0, THIRD._replace(**kept), none, bytes(5)), (0, 0, 0, PAST, three, three), (11, 0, 3, PAST, three, three))
        later = changed(A, {26: "04", 31: "06"})
        kept = {"refusal": 16, "place": 31, "whose": 2}
        self.assertEqual(next_row(THIRD._replace(refusal=18, place=26), later, none, WORK * 5),
                         (16, 31, 2, PAST._replace(**kept), none, bytes(5)))

    def test_whose_record_was_refused(self):
        """Variant 1 is refused, 2 and 3 lean on it, 4 leans on none; 3 has a fault of its own, which nobody comes to."""
        file = file_of(5, (4, "00"), (4, "020003" "00"), (2, "00"), (3, "06"), (6, "00"), (2, "06"))
        state = Rows(0x10, 6, 5, 0x44, 0, 32)
        kept = {"refusal": 23, "place": 36, "whose": 1}
        zeros, twos = bytes(5), bytes([2] * 5)
        self.check(file, (0, 0, 0, state._replace(variant=1, start=33), zeros, zeros),
                   *((23, 36, 1, state._replace(variant=1 + k, start=36 + k, **kept), zeros, zeros) for k in (1, 2, 3)),
                   (0, 0, 0, state._replace(variant=5, start=40), twos, twos), (16, 40, 5, state._replace(variant=6, start=41), twos, twos))

    def test_refused_leaning_record(self):
        one, three = digits("01230"), digits("00300")
        self.check(changed(A, {30: "04"}), (0, 0, 0, SECOND, one, one), (24, 30, 1, THIRD, one, one), (0, 0, 0, PAST, three, three))
        head = "6c1b10" "03000000" "05000000" "00" "1900000000000000"
        file = bytes.fromhex(head + "2002" "020003" + "e400" "" "010102")
        state = Rows(0x10, 3, 5, 0, 0, 25)
        self.check(file, (0, 0, 0, state._replace(variant=1, start=27), one, one),
                   (12, 27, 1, state._replace(variant=2, start=27), one, one),
                   (0, 0, 0, state._replace(variant=3, start=30), digits("02230"), one))

    def test_refused_start(self):
        for length in range(len(A)):
            self.assertEqual(start_rows(A[:length], b""), reference.header_check(A[:length])[:3] + (None,))
        for size in range(5):
            self.assertEqual(start_rows(A, WORK * size), (10, 0, 3, None))


class States(unittest.TestCase):
    """Any state, any file and any buffers."""

    def unchanged(self, state, file, number, place, output=OUTPUT * 5, work=WORK * 5):
        """A refusal before the record changes nothing; 4 names 0, 8 the state's variant, 9 to 11 its M."""
        variant = 0 if number == 4 else state.variant if number == 8 else state.M
        self.assertEqual(next_row(state, file, output, work), (number, place, variant, state, output, work))

    def test_order(self):
        state = Rows(0x10, 16777217, 65537, 0x40, 16777217, 99)
        self.unchanged(state, b"", 4, 3, b"", b"")
        state = state._replace(M=16777216)
        self.unchanged(state, b"", 4, 7, b"", b"")
        state = state._replace(N=65536)
        self.unchanged(state, b"", 10, 0, OUTPUT * 65535, WORK * 65536)
        self.unchanged(state, b"", 10, 0, OUTPUT * 65536, WORK * 65535)
        self.unchanged(state, b"", 11, 0, OUTPUT * 65536, WORK * 65536)
        self.unchanged(PAST, A, 10, 0, OUTPUT * 4)
        self.unchanged(FIRST._replace(M=0, N=0), A, 4, 3, b"", b"")
        self.unchanged(FIRST._replace(N=0, variant=3), A, 4, 7, b"", b"")
        for variant in (3, 4, 65536, 2**64 - 1):
            self.unchanged(FIRST._replace(variant=variant), b"", 11, 0)
        self.unchanged(FIRST._replace(start=99), changed(A, {20: "25"}), 8, 20)
        self.unchanged(FIRST._replace(start=99), A, 9, 34)

    def test_types(self):
        for state, byte, place in ((FIRST, "25", 20), (FIRST, "22", 20), (FIRST, "23", 20), (FIRST, "28", 20),
                                   (SECOND, "50", 20), (SECOND, "80", 20), (THIRD, "05", 21), (THIRD, "4c", 21)):
            self.unchanged(state, changed(A, {place: byte}), 8, place)
        wide = Rows(0x10, 65538, 1, 0x04, 65537, 131104)
        file = bytes(131100) + bytes([2, 2, 0, 1, 0])
        self.unchanged(wide._replace(variant=65536), file, 8, 131100, b"\xa5", b"\2")
        later = wide._replace(variant=65538, start=131105)
        self.assertEqual(next_row(wide, file, b"\xa5", b"\2"), (0, 0, 0, later, b"\2", b"\2"))
        for its_type in (5, 8, 21, 24, 32, 48, 64, 128, 255):
            self.unchanged(wide, file[:131101] + bytes([its_type]) + file[131102:], 8, 131101)

    def test_ends(self):
        for cut in range(25, 27):
            self.unchanged(FIRST, A[:cut], 9, cut)
        self.assertEqual(next_row(FIRST, A[:27], OUTPUT * 5, WORK * 5)[:4], (0, 0, 0, SECOND))
        for cut in range(25):
            self.unchanged(FIRST, A[:cut], 9, cut)
        plain_state = Rows(0x02, 9, 9, 0x00, 7, 12)
        self.unchanged(plain_state, bytes(14), 9, 14, OUTPUT * 9, WORK * 9)
        self.assertEqual(next_row(plain_state, bytes(15), OUTPUT * 9, WORK * 9),
                         (0, 0, 0, plain_state._replace(variant=8, start=15), bytes(9), bytes(9)))

    def test_bytes_past_the_end_are_0(self):
        later = {"start": 12, "refusal": 12, "place": 12}
        for cut in (12, 20, 22):
            self.assertEqual(next_row(FIRST._replace(start=12), A[:cut], OUTPUT * 5, WORK * 5),
                             (12, 12, 0, SECOND._replace(**later), OUTPUT * 5, bytes(5)))
        self.assertEqual(next_row(SECOND._replace(start=15), A[:21], OUTPUT * 5, WORK * 5),
                         (12, 15, 1, THIRD._replace(start=15), OUTPUT * 5, WORK * 5))
        four = Rows(0x10, 1, 5, 0x03, 0, 18)
        self.assertEqual(next_row(four, bytes(18) + b"\xe4\0\0\2", OUTPUT * 5, WORK * 5)[:4],
                         (0, 0, 0, four._replace(variant=1, start=20)))

    def test_any_row_in_the_work_area(self):
        for byte, row in (("20", "5a025a5a01"), ("30", "5a005a5a01")):
            self.assertEqual(next_row(SECOND, changed(A, {20: byte}), OUTPUT * 6, WORK * 7),
                             (0, 0, 0, THIRD, bytes.fromhex(row) + OUTPUT, WORK * 7))
        work = bytes([0, 1, 2, 255, 3])
        self.assertEqual(next_row(SECOND, changed(A, {20: "30"}), OUTPUT * 5, work), (0, 0, 0, THIRD, bytes([2, 0, 0, 255, 1]), work))
        for work in (b"\x5a\2\x5a\x5a\x5a", b"\x5a\x5a\x5a\x5a\1"):
            self.assertEqual(next_row(SECOND, A, OUTPUT * 5, work), (17, 29, 1, THIRD, OUTPUT * 5, work))

    def test_no_anchor(self):
        for number in set(range(1, 256)) - set(RECORD_REFUSALS):
            foreign = {"refusal": number, "place": 99, "whose": 98}
            self.unchanged(SECOND._replace(**foreign), A, 8, 20)
            self.unchanged(SECOND._replace(start=99, **foreign), A, 8, 20)
            self.assertEqual(next_row(THIRD._replace(**foreign), A, OUTPUT * 5, WORK * 5)[:4], (0, 0, 0, PAST))
        for number in (12, 13, 14, 15, 16, 17, 18, 23, 24, 25):
            foreign = {"refusal": number, "place": 99, "whose": 98}
            self.assertEqual(next_row(SECOND._replace(**foreign), A, OUTPUT * 5, WORK * 5),
                             (number, 99, 98, THIRD._replace(**foreign), OUTPUT * 5, WORK * 5))
        accepted = {"place": 99, "whose": 98}
        self.assertEqual(next_row(SECOND._replace(**accepted), A, OUTPUT * 5, digits("01230"))[:4], (0, 0, 0, THIRD._replace(**accepted)))

    def test_ranges(self):
        for M, N, place in ((0, 5, 3), (16777217, 0, 3), (2**32 - 1, 5, 3), (3, 0, 7), (16777216, 65537, 7), (1, 2**32 - 1, 7)):
            self.unchanged(FIRST._replace(M=M, N=N, variant=M, start=2**64 - 1, refusal=19), b"", 4, place, b"", b"")
        self.assertEqual(next_row(Rows(0x02, 9, 1, 0, 7, 12), A, OUTPUT, WORK)[:3], (18, 12, 7))
        self.assertEqual(next_row(Rows(0x02, 16777216, 5, 0, 0, 12), A, OUTPUT * 5, WORK * 5)[4], digits("12100"))

    def test_starts_past_the_end(self):
        for start in (35, 2**32 - 1, 2**63, 2**64 - 1):
            for state in (FIRST, SECOND, THIRD):
                self.unchanged(state._replace(start=start), A, 9, 34)
            self.unchanged(Rows(0x02, 3, 5, 0, 0, start), A, 9, 34)

    def any_state(self, rng):
        """A state of file A with one or two fields that no start gave."""
        others = {"mode": [0x02, 0x10], "M": [0, 1, 16777216, 16777217], "N": [0, 1, 4, 6, 65537], "form": [0, 0x44, 0xc0, 0x83], "variant": range(5),
                  "start": range(40), "refusal": [*range(30), 255], "place": range(40), "whose": range(40)}
        names = rng.sample(sorted(others), rng.randint(1, 2))
        return rng.choice([FIRST, SECOND, THIRD, PAST])._replace(**{name: rng.choice(others[name]) for name in names})

    def test_any_state_gets_a_number_of_the_table(self):
        rng, reached = random.Random(25), set()
        for _ in range(6000):
            file = bytearray(A[:rng.choice([34, 34, 34, rng.randrange(34)])])
            for _ in range(rng.randrange(3) if file else 0):
                file[rng.randrange(len(file))] = rng.choice([0, 1, 2, 3, 0x80, rng.randrange(256)])
            state, output, work = self.any_state(rng), OUTPUT * rng.choice([4, 5, 6, 7]), WORK * rng.choice([4, 5, 6, 7])
            number, _, variant, later, said, kept = next_row(state, bytes(file), output, work)
            reached.add(number)
            if number in RECORD_REFUSALS:
                self.assertIn(variant, {state.variant, state.whose})
            self.assertEqual(later.variant, state.variant + (number not in (4, 8, 9, 10, 11)))
            self.assertEqual((len(said), len(kept)), (len(output), len(work)))
            if number:
                self.assertEqual(said, output)
        self.assertEqual(reached, {0, 4, *POSSIBLE[STEP]})


class Law(unittest.TestCase):
    """From a start on the same file the v-th row is what a read of variant v gives."""

    def check(self, file):
        """A walk to the end and past it."""
        *reply, state = start_rows(file, WORK * 65536)
        self.assertEqual(reply, [0, 0, 0])
        header = pgen_header.read_header(file)
        output, work = OUTPUT * (header.N + 1), WORK * (header.N + 1)
        anchor = None
        for variant, its_type in enumerate(header.types):
            wanted = reference.read(file, variant, output, WORK * header.N)[:4]
            *reply, state, output, work = next_row(state, file, output, work)
            self.assertEqual((*reply, output), wanted)
            if not leans(its_type):
                anchor = reply, output[:header.N] if reply[0] == 0 else bytes(header.N)
            self.assertEqual(state[4:], (variant + 1, header.starts[variant + 1], *anchor[0]))
            self.assertEqual(work, anchor[1] + WORK)
        self.assertEqual(next_row(state, file, output, work), (11, 0, header.M, state, output, work))

    def test_valid_files(self):
        self.addCleanup(setattr, pgen_header, "BLOCK_SIZE", 65536)
        rng = random.Random(23)
        for _ in range(200):
            pgen_header.BLOCK_SIZE = rng.choice([65536, 1, 2, 3, 5, 8, 16])
            N = rng.choice([1, 2, 3, 4, 5, 8, 9, 63, 64, 65, 129, 256, 257, 300])
            self.check(join_file(random_file(rng, N, rng.randint(1, 20)))[0])

    def test_refused_records(self):
        rng = random.Random(24)
        for fault in RECORD_FAULTS * 3:
            self.check(with_leaning_ones(rng, fault).file)

    def test_each_bit_turned(self):
        files = [file for small in (A, file_B()) for _, file in damaged(small) if reference.header_check(file)[0] == 0]
        self.assertGreater(len(files), 500)
        for file in files:
            self.check(file)


class Reached(unittest.TestCase):
    """What the committed cases of rows hold."""

    def test_reached(self):
        cases = list(islice(row_cases(random.Random(f"rows {COMMITTED['seed']}")), COMMITTED["rows"]))
        counts, steps_elsewhere = Counts(), set()
        for case in cases:
            replies = list(replies_of(case, *reply_to(case)))
            counts.file("any", case.first)
            counts.call(case, replies)
            if case.second:
                steps_elsewhere.update(number for _, number, _, _ in replies[1:])
        for call in (ROWS, STEP):
            self.assertEqual([n for n in [0] + POSSIBLE[call] if not counts.of["call", call, n]], [])
        self.assertEqual([kind for kind in KINDS if not counts.of["kind", "row", kind]], [])
        self.assertEqual([n for n in RECORD_REFUSALS if not counts.of["again", n]], [])
        self.assertLessEqual({0, 8, 9, 10, 11, 12, 13, 17, 18}, steps_elsewhere)
        self.assertLessEqual({0, 1, GREATEST_STEPS}, {case.x for case in cases})
        self.assertLessEqual(max(case.x for case in cases), GREATEST_STEPS)
        self.assertLessEqual(max(len(case.second) for case in cases), GREATEST_START)

    def test_damage(self):
        own, elsewhere = set(), set()
        for case in row_damage_cases():
            (elsewhere if case.second else own).update(refusals_of(case, *reply_to(case)))
        short = [number for number in RECORD_REFUSALS if number != 25]  # no list of these files has a size byte
        self.assertLessEqual({(ROWS, number) for number in range(2, 11)} | {(STEP, number) for number in [0, 11] + short}, own)
        self.assertLessEqual({(STEP, number) for number in [0, 8, 9, 11] + short}, elsewhere)


if __name__ == "__main__":
    unittest.main()
