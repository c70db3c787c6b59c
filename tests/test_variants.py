"""Tests of Ask 2 in the independent program, from document 02's words: which rule of a list broke, and which variant a reply names."""

import random
import unittest
from itertools import chain

import pgen_header
import pgen_reference as reference
from pgen_generate import PLAIN_KINDS, make_file, random_file
from pgen_header import leans, read_header
from pgen_header_damage import (HALVES, M_out_of_range, N_out_of_range, bytes_after_records, cut_header, faulted, form_wrong, leaning_first, magic,
                                offset_wrong, other_mode, set_type, short_file, type_wrong, unused_header_bits, wrong_halves)
from pgen_limit_cases import BLOCK, named_in_second_block, second_block_faults, second_block_types
from pgen_list_damage import RULES, break_rules, count_over, head_over, head_stays, pairs_of_rules, size_off, somewhere, step_over, step_stays, with_list
from pgen_parts import join_file
from pgen_phase_damage import TRACK_FAULTS
from pgen_record import RECORD_REFUSALS
from pgen_record_damage import RECORD_FAULTS
from phase_laws import file_of
from probe_cases import replies_of, reply_to
from test_reference import FILL, A, changed


def told(file, variant, N):
    """What the calls begin their replies with that check one variant's record, and those that check all."""
    M = int.from_bytes(file[3:7], "little")
    one = [reading(file, variant, FILL * N, FILL * N) for reading in (reference.read, reference.read_phases)] + [reference.lookup(file, variant, 0, FILL * N)]
    every = [reference.whole_file_check(file, FILL * N), reference.flip(file, bytes((M + 7) // 8), FILL * N)]
    return [[reply[:3] for reply in replies] for replies in (one, every)]


def header_told(file):
    """What the calls begin their replies with that check no record."""
    return reference.header_check(file)[:3], reference.view(file, 0)[:3]


class Rules(unittest.TestCase):
    """Which rule of a list broke: "16 stays for the count, 23 is a number not rising, 24 a number not below N, 25 a size byte"."""

    def place_in(self, its_list, rule, group):
        """A rule's turn in document 01's order, and its place from the list's first byte on."""
        heads = len(its_list.count)
        sizes = heads + its_list.width * len(its_list.heads)
        steps = sizes + len(its_list.size_bytes) + (len(its_list.values) + 3) // 4
        first = steps + sum(len(step) for steps_of in its_list.steps[:group] for step in steps_of)
        head = (group, 0), heads + its_list.width * group
        return {count_over: ((-1, 0), 0), head_stays: head, head_over: head, step_over: ((group, 1), first),
                step_stays: ((group, 2), first + sum(map(len, its_list.steps[group][:-1]))), size_off: ((group, 3), sizes + group)}[rule]

    def check(self, rng, choose):
        """A list with some rules broken: the first of them in order is told, and by every call."""
        parts, variant, its_list = with_list(rng, 65, sizes=[65, 66, 130, 200, 255, 257, 300, 700])
        rules = choose(its_list)
        break_rules(parts.N, its_list, rules)
        file, marks = join_file(parts)
        (_, place), number = min((self.place_in(its_list, rule, group), number) for number, rule, group in rules)
        reply = (number, marks.starts[variant] + len(parts.records[variant].front) + place, variant)
        self.assertEqual(told(file, variant, parts.N), [[reply] * 3, [reply] * 2], rules)
        return number

    def test_each_rule(self):
        rng = random.Random(51)
        for number, rule, _ in RULES * 20:
            self.assertEqual(self.check(rng, lambda its_list, rule=rule: [somewhere(rng, its_list, rule)]), number)

    def test_each_two(self):
        rng = random.Random(52)
        numbers = [self.check(rng, lambda its_list: rng.choice(pairs_of_rules(its_list))) for _ in range(300)]
        self.assertEqual(set(numbers), {16, 23, 24, 25})

    def test_of_one_group(self):
        """Heads and steps of short lists, which have no size byte."""
        for its_list, number, place in (("06", 16, 0), ("0105" "01", 24, 1), ("0200" "05" "00", 23, 3), ("0200" "05" "05", 24, 3),
                                        ("0300" "15" "0100", 23, 4), ("0300" "15" "0104", 24, 4), ("0304" "15" "0100", 24, 3)):
            file = file_of(5, (4, "00"), (4, its_list))
            self.assertEqual(reference.read(file, 1, FILL * 5, FILL * 5)[:3], (number, 25 + place, 1), its_list)

    def test_listing(self):
        """The listing program's line has no variant."""
        self.assertEqual(reference.listing(changed(A, {30: "00"})), "refused 23 30\n")
        self.assertEqual(reference.listing(changed(A, {30: "04"})), "refused 24 30\n")
        long = file_of(66, (4, "00"), (4, "41" "0040" "01" + "55" * 16 + "01" + "01" * 63))
        self.assertEqual(reference.listing(long), "refused 25 28\n")


class Records(unittest.TestCase):
    """12 to 18 and 23 to 25 name "always the variant in whose record .. the fault lies", with blocks of several sizes."""

    def tearDown(self):
        pgen_header.BLOCK_SIZE = 65536

    def files(self, seed, count):
        """Files with a fault in a record, put behind right variants so that the faulty one may stand in any block."""
        rng = random.Random(seed)
        for fault in rng.choices(RECORD_FAULTS + TRACK_FAULTS, k=count):
            pgen_header.BLOCK_SIZE = 65536
            parts, variant = fault(rng)
            if parts.N > 400:
                continue
            before = make_file(rng, parts.N, [rng.choice(PLAIN_KINDS) for _ in range(rng.randrange(8))], [0] * 7).records
            parts.records[:0], parts.types[:0], parts.flags[:0] = before, [record.type() for record in before], [0] * len(before)
            starts = [v for v, its_type in enumerate(parts.types) if not leans(its_type)]
            pgen_header.BLOCK_SIZE = rng.choice([65536, *(size for size in range(1, 9) if set(range(0, parts.M(), size)) <= set(starts))])
            yield parts, variant + len(before), *join_file(parts)

    def test_the_record_holds_the_place(self):
        named = {"itself": set(), "anchor": set(), "later block": set()}
        for parts, variant, file, marks in self.files(53, 900):
            header = read_header(file)
            ends = [*marks.starts[1:], len(file)]
            for asked in range(max(0, variant - 3), min(parts.M(), variant + 3)):
                one, _ = told(file, asked, parts.N)
                self.assertEqual(one, [one[0]] * 3)
                number, place, name = one[0]
                if number == 0:
                    self.assertEqual(one[0], (0, 0, 0))
                    continue
                self.assertIn(number, RECORD_REFUSALS)
                self.assertIn(name, {asked, header.anchor(asked)} if leans(header.types[asked]) else {asked})
                self.assertTrue(marks.starts[name] <= place <= ends[name], (number, place, name))
                self.assertEqual(reference.read(file, name, FILL * parts.N, FILL * parts.N)[:3], one[0])
                named["itself" if name == asked else "anchor"].add(number)
                named["later block"].add(number if name >= pgen_header.BLOCK_SIZE else 0)
        for numbers in named.values():
            self.assertEqual(numbers - {0}, set(RECORD_REFUSALS))

    def test_the_first_that_is_refused(self):
        """What checks all records names the first that a read refuses."""
        for parts, _, file, _ in self.files(54, 150):
            reads = [reference.read(file, variant, FILL * parts.N, FILL * parts.N)[:3] for variant in range(parts.M())]
            first = next((reply for reply in reads if reply[0]), (0, 0, 0))
            self.assertEqual(told(file, 0, parts.N)[1], [first] * 2)

    def test_by_hand(self):
        """Three variants, from byte 26 on: the second is the third's anchor."""
        right = [(4, "00"), (4, "010203"), (2, "010001")]
        for at, body, reply in ((1, "060203", (16, 27, 1)), (1, "01020300", (13, 30, 1)), (2, "010501", (24, 31, 2)), (2, "", (12, 30, 2)),
                                (0, "", (12, 26, 0))):
            file = file_of(5, *right[:at], (right[at][0], body), *right[at + 1:])
            for asked in range(3):
                refused = asked == at or at == 1 and asked == 2
                self.assertEqual(told(file, asked, 5), [[reply if refused else (0, 0, 0)] * 3, [reply] * 2], (at, body, asked))


class Headers(unittest.TestCase):
    """8 names the variant whose type is at fault; "M where no variant is concerned, 0 in 1 to 4"."""

    def tearDown(self):
        pgen_header.BLOCK_SIZE = 65536

    def test_types(self):
        """In either half of a byte, in both, and in later bytes too; with blocks of several sizes, each of which begins a byte."""
        rng = random.Random(55)
        for halves in HALVES * 100:
            pgen_header.BLOCK_SIZE = rng.choice([65536, 2, 4, 6])
            parts = make_file(rng, 5, [rng.choice(PLAIN_KINDS) for _ in range(12)], [0] * 12)
            parts.form &= ~4
            joined, marks = join_file(parts)
            file, variant = bytearray(joined), 2 * rng.randrange(6)
            wrong_halves(rng, file, marks, variant, halves)
            if variant < 10 and rng.random() < 0.5:
                wrong_halves(rng, file, marks, variant + 2, rng.choice(HALVES))
            named = variant + halves[0]
            self.assertEqual(header_told(bytes(file)), ((8, marks.types[named], named),) * 2)

    def test_leaning_first(self):
        """The first variant of a block may not lean, and is named by its number in the file."""
        pgen_header.BLOCK_SIZE = 4
        for first in (0, 4, 8):
            kinds = [4] * 12
            file, marks = join_file(make_file(random.Random(56), 5, kinds, [0] * 12))
            later = bytearray(file)
            for leaning in (first, first + 1):
                set_type(None, later, marks, leaning, 2)
            self.assertEqual(header_told(bytes(later)), ((8, marks.types[first], first),) * 2)

    def test_numbers_without_a_variant(self):
        rng, reached = random.Random(57), set()
        faults = [short_file, magic, other_mode, M_out_of_range, N_out_of_range, form_wrong, cut_header, unused_header_bits, offset_wrong, bytes_after_records,
                  type_wrong, leaning_first]
        for fault in faults * 12:
            _, _, file = faulted(rng, fault)
            reply, of_view = header_told(file)
            self.assertEqual(reply, of_view)
            number, place, variant = reply
            reached.add(number)
            if number == 8:
                header = pgen_header.Header(file)
                self.assertEqual(header.type_place(variant), place)
            else:
                self.assertEqual(variant, int.from_bytes(file[3:7], "little") if number > 4 else 0)
        self.assertEqual(reached, set(range(1, 10)))


class Arguments(unittest.TestCase):
    """10, 11 and 21; a writer; what is accepted."""

    def test_numbers(self):
        """11 names the variant "for a sample of a variant below M"."""
        for x in (0, 1, 2, 3, 4, 2**32, 2**64 - 1):
            for y in (4, 5, 2**32, 2**64 - 1):
                reply = reference.lookup(A, x, y, FILL * 5)[:3]
                self.assertEqual(reply, (11, 0, 3) if x > 2 else (11, 0, x) if y > 4 else (0, 0, 0), (x, y))
            for reply in (reference.read(A, x, FILL * 5, FILL * 5), reference.read_phases(A, x, FILL * 5, FILL * 5), reference.view(A, x)):
                self.assertEqual(reply[:3], (11, 0, 3) if x > 2 else (0, 0, 0))

    def test_sizes(self):
        short = FILL * 4
        for reply in (reference.read(A, 1, short, FILL * 5), reference.read(A, 9, FILL * 5, short), reference.read_phases(A, 0, short, short),
                      reference.lookup(A, 1, 9, short), reference.whole_file_check(A, short), reference.flip(A, b"\0", short),
                      reference.flip(A, b"", FILL * 5)):
            self.assertEqual(reply[:3], (10, 0, 3))
        self.assertEqual(reference.flip(A, b"\x08", FILL * 5)[:3], (21, 0, 3))

    def test_writers(self):
        for categories, kind, anchor, phases, reply in (
                (b"", 0, b"", b"", (4, 0)), (b"\1", 5, b"", b"\0", (19, 0)), (b"\1", 0, b"\0", b"\0", (10, 0)), (b"\1\0\4", 0, b"", bytes(3), (20, 2)),
                (b"\1\1", 0, b"", b"\0\3", (22, 1)), (b"\1", 0, b"", b"\1", (10, 0))):
            self.assertEqual(reference.write_phased_record(categories, phases, kind, 0, anchor, b"")[:3], (*reply, 0))
            if reply[0] != 22:
                self.assertEqual(reference.write_record(categories, kind, 0, anchor, b"")[:3], (*reply, 0))

    def test_accepted(self):
        rng = random.Random(58)
        for _ in range(60):
            parts = random_file(rng, rng.choice([1, 5, 65]))
            file, last = join_file(parts)[0], parts.M() - 1
            self.assertEqual((told(file, last, parts.N), *header_told(file)), ([[(0, 0, 0)] * 3, [(0, 0, 0)] * 2], (0, 0, 0), (0, 0, 0)))


class SecondBlock(unittest.TestCase):
    """Real blocks: variant 65,537 is named by that number, and not by 1, its number in the block."""

    def named(self, cases):
        """Refusal and variant of each."""
        return [(number, variant) for case in cases for _, number, _, variant in list(replies_of(case, *reply_to(case)))[:1]]

    def test_fewest(self):
        self.assertEqual(self.named(named_in_second_block(random.Random(59))), [(23, BLOCK), (24, BLOCK + 1), (8, BLOCK + 1), (18, BLOCK + 1)])

    def test_all(self):
        of_rules = [(number, BLOCK + behind) for number, _, _ in RULES for behind in (0, 1)]
        of_types = [(8, BLOCK + 1), (8, BLOCK)] * 3
        self.assertEqual(self.named(second_block_faults(random.Random(60))), [*of_rules, *of_types, (11, BLOCK + 1), (11, BLOCK + 2), *[(18, BLOCK + 1)] * 4])

    def test_types(self):
        of_first = [(0, 0) if kind in (0, 1, 4, 6, 7) else (8, BLOCK) for kind in range(16)]
        of_second = [(0, 0) if kind in (0, 1, 2, 3, 4, 6, 7) else (8, BLOCK + 1) for kind in range(16)]
        self.assertEqual(self.named(second_block_types()), [*chain(of_first, of_second), *[(8, BLOCK)] * 4])


if __name__ == "__main__":
    unittest.main()
