"""Tests of the cases of lists with steps of chosen byte sizes, by the independent program alone: what each aims at, and what they reach."""

import random
import unittest
from collections import Counter

import pgen_reference as reference
from compare import ROOT
from pgen_cases import ROWS
from pgen_generate import LIST_KINDS
from pgen_header import KIND_BITS, PHASED, leans, read_header
from pgen_parts import join_file
from pgen_record import varint
from pgen_step_cases import aimed_cases, right_lists, step_cases, trials
from pgen_step_lists import (Shape, bytes_left, cut_at, file_with, head_is, held_back, nothing_behind, place_of, size_is, step_is, step_past, steps_round,
                             track_for_step, track_missing, unused_bit)
from pgen_variant_cases import ON_RECORDS
from probe_cases import replies_of, reply_to

NUMBERS = (0, 12, 13, 15, 17, 18, 23, 24, 25)

# Two lists whose places were worked out by hand, from the list's first byte on.
# 70 samples from 0 on: byte 0 the count, 1 and 2 the heads, 3 the size byte, 4 to 21 the values, 22 to 84 and 85 to 89 the steps of its two groups.
ONES, ONES_BEGIN, ONES_VALUES, ONES_STEPS = Shape(100, list(range(70))), "46" "00" "40" "00", 18, "01" * 68
# 64 samples from 0 on, each 128 more, then 8065 and 8193: byte 0 the count, 1 to 4 the heads, 5 the size byte, 6 to 22 the values, 23 to 148 and 149
# to 150 the steps.
TWOS, TWOS_BEGIN, TWOS_VALUES, TWOS_STEPS = Shape(9000, [*range(0, 8065, 128), 8065, 8193]), "42" "0000" "811f" "3f", 17, "8001" * 64
BY_HAND = [
    (ONES, [step_is(0, 0, b"\0", 23)], 23, 22), (ONES, [step_is(0, 31, b"\0", 23)], 23, 53), (ONES, [step_is(0, 62, b"\0", 23)], 23, 84),
    (ONES, [step_is(0, 31, b"\x80\0", 15)], 15, 53), (ONES, [step_is(1, 4, b"\x81\0", 15)], 15, 89),
    (ONES, [step_past(ONES, 0, 0)], 24, 22), (ONES, [step_past(ONES, 0, 62)], 24, 84), (ONES, [step_past(ONES, 1, 4, True)], 24, 89),
    (ONES, [steps_round(0, 0, [127, 127, 2] + [1] * 60)], 24, 22), (ONES, [head_is(1, 63, 23)], 23, 2), (ONES, [head_is(1, 100, 24)], 24, 2),
    (ONES, [held_back(0)], 17, 4), (ONES, [held_back(35)], 17, 12), (ONES, [held_back(69)], 17, 21), (ONES, [unused_bit(4)], 18, 21),
    (ONES, [size_is(0, 1)], 25, 3), (ONES, [size_is(0, 255)], 25, 3), (ONES, [cut_at(0, 0)], 12, 22), (ONES, [cut_at(0, 31)], 12, 53),
    (ONES, [cut_at(1, 4)], 12, 89), (ONES, [bytes_left(b"\1")], 13, 90),
    (ONES, [step_is(0, 40, b"\0", 23), held_back(20)], 17, 9), (ONES, [step_is(0, 40, b"\0", 23), held_back(41)], 23, 62),
    (ONES, [size_is(0, 1), step_is(1, 0, b"\0", 23)], 25, 3), (ONES, [size_is(0, 1), cut_at(0, 62)], 12, 84), (ONES, [unused_bit(7), cut_at(0, 0)], 18, 21),
    (TWOS, [step_is(0, 0, b"\0", 23)], 23, 23), (TWOS, [step_is(0, 31, b"\x80\0", 15)], 15, 85), (TWOS, [step_is(0, 62, b"\x81\0", 15)], 15, 147),
    (TWOS, [step_past(TWOS, 0, 0)], 24, 23), (TWOS, [step_past(TWOS, 0, 62, True)], 24, 147), (TWOS, [step_past(TWOS, 1, 0)], 24, 149),
    (TWOS, [steps_round(0, 1, [16383, 16383, 16383, 16259] + [128] * 58)], 24, 25), (TWOS, [held_back(64)], 17, 22), (TWOS, [unused_bit(4)], 18, 22),
    (TWOS, [size_is(0, 62)], 25, 5), (TWOS, [size_is(0, 0)], 25, 5), (TWOS, [cut_at(0, 31, 1)], 12, 86), (TWOS, [cut_at(1, 0, 1)], 12, 150),
    (TWOS, [bytes_left(b"\0")], 13, 151), (TWOS, [step_past(TWOS, 0, 9), step_is(0, 50, b"\0", 23)], 24, 41),
]


def of_step(index, count):
    """Where a step stands among so many."""
    return {0: "first", count - 1: "last"}.get(index, "middle")


class ByHand(unittest.TestCase):
    """Lists whose bytes and places were worked out by hand."""

    def built(self, shape, kind, faults, tracked=False):
        """A file with the list in its last record: the record, where it starts, and what a read says."""
        parts, variant = file_with(random.Random(71), shape, kind, tracked, nothing_behind, faults)
        file, marks = join_file(parts)
        number, place, named = reference.read(file, variant, bytes(shape.N), bytes(shape.N))[:3]
        return parts.records[variant], marks.starts[variant], (number, place, named == (variant if number else 0))

    def test_bytes(self):
        for shape, begin, values, steps in ((ONES, ONES_BEGIN, ONES_VALUES, ONES_STEPS), (TWOS, TWOS_BEGIN, TWOS_VALUES, TWOS_STEPS)):
            record, _, reply = self.built(shape, 4, [])
            before = len(begin) // 2
            self.assertEqual((record.join()[:before].hex(), record.join()[before + values:].hex()), (begin, steps))
            self.assertEqual(reply, (0, 0, True))

    def test_places(self):
        """In kind 1 the list stands behind the pair code and a bit for each sample: 14 bytes for N of 100, 1,126 for N of 9,000."""
        for shape, faults, number, place in BY_HAND:
            for kind in LIST_KINDS:
                before = {100: 14, 9000: 1126}[shape.N] if kind == 1 else 0
                record, start, reply = self.built(shape, kind, faults)
                self.assertEqual(reply, (number, start + before + place, True), (kind, shape.N, number, place))
                first = min(faults, key=lambda fault: fault.turn)
                self.assertEqual((first.number, place_of(record, first.part)), (number, before + place))

    def test_tracks(self):
        """A track that is not there, or whose first byte, a 0, is taken for the last step: of 0 where the step is gone, padded where one of its bytes is."""
        for shape, fault, number, place in ((ONES, track_missing(), 12, 90), (ONES, track_for_step(ONES, 0), 23, 89), (TWOS, track_missing(), 12, 151),
                                            (TWOS, track_for_step(TWOS, 0), 23, 149), (TWOS, track_for_step(TWOS, 1), 15, 149)):
            for kind in (2, 3, 4, 6, 7):
                _, start, reply = self.built(shape, kind, [fault], True)
                self.assertEqual(reply, (number, start + place, True), (kind, shape.N, number, place))

    def test_to_the_last_sample(self):
        """Steps to N - 1 are right, in a full group and in one of six."""
        for shape in (Shape(70, ONES.samples), Shape(64, ONES.samples[:64]), Shape(8194, TWOS.samples), Shape(8065, TWOS.samples[:64])):
            for kind in LIST_KINDS:
                self.assertEqual(self.built(shape, kind, [])[2], (0, 0, True))


class Aims(unittest.TestCase):
    """All cases of a seed."""

    aimed = list(aimed_cases(random.Random("steps 1")))

    def wanted(self, header, aimed):
        """The replies to a case, of a walk the start's and those of its steps."""
        if aimed.case.call != ROWS:
            return [aimed.reply]
        of_steps = [(0, 0, 0)] * header.M
        of_steps[aimed.variant] = aimed.reply
        for later in range(aimed.variant + 1, header.M):
            if leans(header.types[later]) and not leans(header.types[aimed.variant]):
                of_steps[later] = aimed.reply
        return [(0, 0, 0), *of_steps]

    def test_replies(self):
        """Each case gets what it aims at; each number in each kind by each call, with a track and without, in the last record and before others."""
        reached = Counter()
        for aimed in self.aimed:
            header, number = read_header(aimed.case.first), aimed.reply[0]
            its_type = header.types[aimed.variant]
            got = [reply for _, *reply in replies_of(aimed.case, *reply_to(aimed.case))]
            self.assertEqual(list(map(tuple, got)), self.wanted(header, aimed), (its_type, aimed.case.call))
            reached[number, aimed.case.call, its_type & KIND_BITS] += 1
            reached[number, its_type & PHASED, aimed.variant == header.M - 1] += 1
        self.assertEqual([key for key in ((number, call, kind) for number in NUMBERS for call in ON_RECORDS for kind in LIST_KINDS) if not reached[key]], [])
        self.assertEqual([key for key in ((number, bit, last) for number in NUMBERS for bit in (0, PHASED) for last in (0, 1)) if not reached[key]], [])
        self.assertLessEqual({key[0] for key in reached}, set(NUMBERS))

    def test_right_lists(self):
        """Groups of 63 steps of one byte, of two and of both, and with one of three at each place; last groups of every count; lists that go to the end."""
        full, full_of_two, last, ends = set(), [], set(), set()
        for shape in (trial.shape for trial in right_lists(random.Random(72))):
            groups = [shape.steps(group) for group in range(shape.last_group() + 1)]
            for steps in groups:
                sizes = [len(varint(step)) for step in steps]
                if len(steps) == 63:
                    full.add((tuple(sorted(set(sizes))), of_step(sizes.index(3), 63) if 3 in sizes else None))
                    full_of_two += [steps] if set(sizes) == {2} else []
            last.add((len(groups[-1]) + 1, len(groups) > 1))
            if shape.samples[-1] == shape.N - 1:
                ends.add((len(groups[-1]), max(sizes, default=0)))
        self.assertLessEqual({((1,), None), ((2,), None), ((1, 2), None), *(((1, 3), place) for place in ("first", "middle", "last"))}, full)
        self.assertTrue(any(sizes == (1, 2, 3) for sizes, _ in full))
        self.assertTrue(any(16383 in steps for steps in full_of_two))
        self.assertLessEqual({(entries, True) for entries in (64, 1, 2, 63)} | {(64, False)}, last)
        self.assertLessEqual({(63, size) for size in (1, 2, 3)} | {(62, size) for size in (1, 2, 3)}, ends)

    def test_faults(self):
        """Every number of a step at the first, a middle and the last place, in a full group and in the last; values at each place of a byte."""
        steps, values = set(), set()
        for shape, faults, _ in trials(random.Random(73)):
            for fault in faults if len(faults) == 1 else ():
                what, *at = fault.part
                if what == "step":
                    count = len(shape.steps(at[0]))
                    steps.add((fault.number, of_step(at[1], count), at[0] == shape.last_group()))
                elif what == "value":
                    values.add((at[0] % 4, "first" if at[0] < 4 else "last" if at[0] // 4 == (len(shape.samples) - 1) // 4 else "middle"))
        self.assertLessEqual({(number, place, last) for number in (15, 23, 24) for place in ("first", "middle", "last") for last in (False, True)}, steps)
        self.assertEqual({(place, byte) for place in range(4) for byte in ("first", "middle", "last")}, values)

    def test_same_seed_same_cases(self):
        for case, aimed in zip(step_cases(random.Random("steps 1")), self.aimed[:60]):
            self.assertEqual(case, aimed.case)

    def test_documents_tell_how_many(self):
        lists = len(self.aimed) // len(ON_RECORDS)
        self.assertEqual([len(list(trials(random.Random(seed)))) for seed in range(5)], [lists] * 5)
        self.assertIn(f"{lists} lists, {len(self.aimed):,} calls", (ROOT / "docs" / "TESTING.md").read_text(encoding="utf-8"))


if __name__ == "__main__":
    unittest.main()
