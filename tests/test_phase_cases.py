"""Tests of the cases of phases: what each fault of a track is refused with, and what the committed cases reach."""

import random
import unittest
from collections import Counter

import pgen_reference as reference
from compare import COMMITTED_PHASES
from pgen_cases import FLIP, PHASES, READ, ROWS, WRITE_PHASED
from pgen_generate import ALL_KINDS
from pgen_header import KIND_BITS, PHASED, Refused, leans, read_header
from pgen_parts import join_file
from pgen_phase_cases import PHASED_WRITER_FAULTS, nonempty, phase_limits, phased_writer_case
from pgen_phase_damage import TRACK_FAULTS
from pgen_phase_generate import FOCUS_CALLS, STYLES, focused_phased_file, random_phased_file
from pgen_phase import UNPHASED
from pgen_record import RECORD_REFUSALS
from probe_cases import POSSIBLE, STEP, cases_of_phases, refusals_of, reply_to

# what each fault can be refused with; 0 where the damaged track may be another right one
REFUSED_WITH = {
    "track_missing": {12}, "first_part_cut": {12}, "first_part_unused_bits": {18}, "rest_of_the_byte": {18}, "phase_bits_missing": {12},
    "phase_bits_cut": {12}, "phase_unused_bits": {18}, "bytes_left": {13}, "bytes_for_no_phase_bits": {13}, "presence_bit_off": {0, 12, 13, 18},
    "first_bit_off": {0, 12, 13, 18}, "track_of_other_calls": {0, 12, 13, 18}, "bit_without_track": {12}, "track_without_bit": {13},
    "anchor_too": {12, 13}, "changed_track": {0, 12, 13, 18}, "changed_large_track": {0, 12, 13, 18}, "main_track_too": {0, *RECORD_REFUSALS},
}


def records_of(file):
    """The records of a file with their types, or none if the file is refused."""
    try:
        header = read_header(file)
        return header, reference.read_all(file, header)
    except Refused:
        return None, []


class Faults(unittest.TestCase):
    """Damaged tracks and arguments."""

    def test_refusals(self):
        rng = random.Random(31)
        self.assertEqual(set(REFUSED_WITH), {fault.__name__ for fault in TRACK_FAULTS})
        for fault in TRACK_FAULTS:
            numbers = Counter()
            for _ in range(60):
                parts, variant = fault(rng)
                file, N = join_file(parts)[0], parts.N
                self.assertEqual(reference.header_check(file)[0], 0)
                replies = [call(file, variant, bytes(N), bytes(N))[:3] for call in (reference.read, reference.read_phases)]
                self.assertEqual(*replies)
                numbers[replies[0][0]] += 1
            self.assertLessEqual(set(numbers), REFUSED_WITH[fault.__name__], fault.__name__)
            self.assertGreater(len(set(numbers) - {0}), min(1, len(REFUSED_WITH[fault.__name__]) - 2), fault.__name__)

    def test_writer(self):
        rng = random.Random(32)
        wanted = dict(zip((fault.__name__ for fault in PHASED_WRITER_FAULTS), (19, 19, 19, 10, 10, 20, 22, 22)))
        for fault in PHASED_WRITER_FAULTS:
            for _ in range(20):
                case = fault(rng, nonempty(rng, phased_writer_case))
                number = reference.write_phased_record(case.first, case.third, case.x, case.y, case.second, bytes(9999))[0]
                self.assertIn(number, {wanted[fault.__name__]} | ({0} if fault.__name__ == "phase_outside_category_1" else set()), fault.__name__)

    def test_valid(self):
        rng = random.Random(33)
        for kind in ALL_KINDS:
            for H in FOCUS_CALLS:
                for style in STYLES:
                    parts, variant = focused_phased_file(rng, kind, H, style)
                    _, records = records_of(join_file(parts)[0])
                    self.assertEqual(records[variant].categories.count(1), H)
                    self.assertEqual([record.phases() for record in records], [record.phases() for record in parts.records])
        for _ in range(60):
            parts = random_phased_file(rng)
            self.assertEqual([record.phases() for record in records_of(join_file(parts)[0])[1]], [record.phases() for record in parts.records])


class Reached(unittest.TestCase):
    """What the committed cases hold."""

    cases = list(cases_of_phases(**COMMITTED_PHASES))
    refusals = Counter(pair for case in cases for pair in refusals_of(case, *reply_to(case)))

    def test_refusals(self):
        for call in (PHASES, WRITE_PHASED):
            self.assertEqual([number for number in [0] + POSSIBLE[call] if not self.refusals[call, number]], [], call)
        for call in (READ, FLIP):
            self.assertEqual([number for number in (0, 8, 12, 13, 18) if not self.refusals[call, number]], [], call)
        self.assertEqual([number for number in (0, 12, 13, 18) if not self.refusals[STEP, number]], [])

    def test_tracks(self):
        read, flipped, walked = set(), set(), set()
        for case in self.cases:
            header, records = records_of(case.first)
            if case.call == PHASES and records and case.x < header.M and records[case.x].track:
                track = records[case.x].track
                some = len(set(map(bool, track.phases))) == 2
                read.add((header.types[case.x] & KIND_BITS, len(track.phases)))
                read.add((track.stored, "some" if some else UNPHASED not in track.phases))
            if case.call == FLIP and records:
                flipped |= self.memberships(header, case.second)
            if case.call == ROWS and records:
                walked.update(its_type for its_type in header.types if its_type & PHASED)
        self.assertLessEqual({(kind, H) for kind in ALL_KINDS for H in FOCUS_CALLS}, read)
        self.assertLessEqual({(True, "some"), (True, True), (True, False), (False, True)}, read)
        self.assertEqual({(kind, member, anchor) for kind in (2, 3) for member in (0, 1) for anchor in (0, 1)}, flipped)
        self.assertEqual({kind | PHASED for kind in ALL_KINDS}, walked)

    def memberships(self, header, flip_set):
        """Of leaning records with a track: the kind, whether it is a member, whether its anchor is."""
        found, anchor = set(), 0
        for variant, its_type in enumerate(header.types):
            member = flip_set[variant // 8] >> variant % 8 & 1 if variant // 8 < len(flip_set) else 0
            if not leans(its_type):
                anchor = member
            elif its_type & PHASED:
                found.add((its_type & KIND_BITS, member, anchor))
        return found

    def test_limits(self):
        numbers = [reply_to(case)[0][0] for case in phase_limits(random.Random(34))]
        self.assertEqual(numbers[:6], [0] * 6)
        self.assertEqual(numbers[-1], 4)


if __name__ == "__main__":
    unittest.main()
