"""Tests of the one-byte fields: the table is the committed one, every value is tried, and a program that takes one value for another is seen."""

import unittest

import compare
from pgen_byte_cases import ABOVE_A_BYTE, runs, sweeps, table
from pgen_header import PHASED
from pgen_phase_bytes import PHASED_TYPES, phase_sweeps
from pgen_record import PAIRS
from probe_cases import line_of, reply_to

EVERY = list(range(256))


def allowed(its_type, first=False):
    """A type that is allowed, with the same low bits where they are allowed."""
    kind = its_type & 7
    return 0 if kind == 5 or first and kind in (2, 3) else kind


def allowed_wide(its_type, first=False):
    """A type of 8 bits, likewise: bit 4 is allowed."""
    return allowed(its_type, first) | its_type & PHASED


def allowed_both(byte, first=False):
    """Two types of 4 bits, likewise."""
    return allowed(byte & 15, first) | allowed(byte >> 4) << 4


# a field's sweep, where the field stands, and for a value one that is right in the same file, for which a wrong program could take it
TAKEN_FOR = [
    ("magic byte 0", 0, lambda value: 0x6c), ("magic byte 1", 1, lambda value: 0x1b),
    ("mode, in a file laid out for 0x10", 2, lambda value: 0x10), ("mode, in a file laid out for 0x02", 2, lambda value: 0x02),
    ("form, mode 0x10", 11, lambda value: value & 0xc7), ("form, mode 0x02", 11, lambda value: value & 0xc0),
    ("types of 4 bits, byte 0", 20, lambda value: allowed_both(value, True)), ("types of 4 bits, byte 1", 21, allowed_both),
    ("types of 4 bits, byte 2", 22, allowed), ("types of 8 bits, byte 0", 20, lambda value: allowed_wide(value, True)),
    ("types of 8 bits, byte 1", 21, allowed_wide), ("types of 8 bits, byte 4", 24, allowed_wide),
    ("pair code", 23, lambda value: 1), ("size byte", 26, lambda value: 0),
]
TAKEN_FOR_OF_PHASES = [
    ("types of 8 bits with bit 4, byte 0", 20, lambda value: allowed_wide(value, True)), ("types of 8 bits with bit 4, byte 1", 21, allowed_wide),
    ("first byte of a track", 26, lambda value: value & 0x3f if value & 1 else 0), ("phase bits", 27, lambda value: value & 0x1f),
]


def line(case):
    """The independent program's line."""
    return line_of(*reply_to(case))


def changed(case, place, value):
    """The case with another byte in its file."""
    return case._replace(first=case.first[:place] + bytes([value]) + case.first[place + 1:])


class Bytes(unittest.TestCase):
    """What is tried, and what is seen."""

    found = [*sweeps(), *phase_sweeps()]

    def values(self, cases):
        """The values that a sweep's cases have, in order."""
        return list(dict.fromkeys(value for value, _ in cases))

    def sweep(self, name):
        """The sweep of this name."""
        return next(sweep for sweep in self.found if sweep.name == name)

    def test_table(self):
        self.assertEqual((compare.ROOT / "tests" / "every_value.txt").read_text(), table() + table(phase_sweeps))

    def test_every_value(self):
        tried = {sweep.name: [self.values(cases) for cases in (sweep.alone, sweep.behind)] for sweep in self.found}
        for name in [name for name, _, _ in TAKEN_FOR] + ["flip set"]:
            self.assertEqual(tried[name], [EVERY] * 2, name)
        for name in [name for name in tried if name.endswith("in steps")]:
            self.assertEqual(tried[name], [PHASED_TYPES if "with bit 4" in name else EVERY, []], name)
        self.assertEqual(tried["first byte of a track"], [EVERY, []])
        for name in ["writer's kind"] + [f"writer's pair code, kind {kind}" for kind in (0, 1, 2)]:
            self.assertEqual(tried[name], [EVERY + ABOVE_A_BYTE] * 2, name)
        for name in [f"writer's pair code, kind {kind}" for kind in (3, 4, 6, 7)]:
            self.assertEqual(tried[name], [EVERY[:10] + ABOVE_A_BYTE] * 2, name)

    def test_each_case_has_its_value(self):
        for name, place, _ in TAKEN_FOR + TAKEN_FOR_OF_PHASES:
            for value, case in self.sweep(name).alone:
                self.assertEqual(case.first[place], value, name)

    def test_one_value_taken_for_another(self):
        for name, place, other in TAKEN_FOR + TAKEN_FOR_OF_PHASES:
            for value, case in self.sweep(name).alone + self.sweep(name).behind:
                if other(value) != value and not (name == "pair code" and value in PAIRS):
                    self.assertNotEqual(line(case), line(changed(case, place, other(value))), (name, value))

    def test_pair_codes_exchanged(self):
        for one, other in ((1, 2), (2, 3), (3, 5), (5, 6), (6, 9), (9, 1)):
            cases = [case for value, case in self.sweep("pair code").alone if value == one]
            self.assertTrue(any(line(case) != line(changed(case, 23, other)) for case in cases), (one, other))

    def test_writer_numbers_cut_to_a_byte(self):
        for sweep in self.found:
            if sweep.name.startswith("writer"):
                part = "x" if sweep.name.endswith("kind") else "y"
                for value, case in sweep.alone:
                    taken = case._replace(**{part: value % 256})
                    if value > 255 and reply_to(taken)[0][0] == 0:
                        self.assertNotEqual(line(case), line(taken))

    def test_documents_tell_how_many(self):
        told = f"{(compare.ROOT / 'crates' / 'probe' / 'stdout').read_bytes().count(10):,} cases"
        for name in ("TESTING.md", "SCOPE-TRACE.md"):
            self.assertIn(told, (compare.ROOT / "docs" / name).read_text(encoding="utf-8"), name)

    def test_runs(self):
        self.assertEqual(runs([0, 1, 2, 4, 254, 255, 256, 1 << 32]), "00-02 04 fe-100 100000000")


if __name__ == "__main__":
    unittest.main()
