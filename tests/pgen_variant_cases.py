"""Cases of Ask 2: which rule of a list broke, and which variant a refusal names.

The lists are of two groups, so that each rule has its place, and variants stand before, so that number 0 is nobody's.
"""

from pgen_cases import (FILE_CALLS, FLIP, LOOKUP, ON_ONE_VARIANT, PHASES, READ, ROWS, VIEW, WHOLE_FILE, Case, Subject, file_case,
                        subject_of)
from pgen_generate import LIST_KINDS, PLAIN_KINDS, make_file
from pgen_header import LEANING_KINDS
from pgen_header_damage import HALVES, wrong_halves
from pgen_list_damage import RULES, break_rules, pairs_of_rules, somewhere
from pgen_parts import ListParts, join_file
from pgen_row_cases import elsewhere, whole_walk

ONE_BYTE, TWO_BYTES = [67, 70, 90, 100], [257, 300]  # N by the bytes of a sample number
ON_RECORDS = [READ, LOOKUP, PHASES, WHOLE_FILE, FLIP, ROWS]


class Leaning:
    """A file in parts: some variants, an anchor, two that lean on it, and an anchor with its own; one of them has a list of two groups."""

    def __init__(self, rng, at_fault):
        N = rng.choice(ONE_BYTE * 2 + TWO_BYTES)
        before = [rng.choice(PLAIN_KINDS) for _ in range(rng.randint(1, 3))]
        self.anchor = len(before)
        leaning = [rng.choice(LEANING_KINDS) for _ in range(3)]
        with_list = [kind for kind in LIST_KINDS if kind in PLAIN_KINDS]
        kinds = [*before, rng.choice(with_list), *leaning[:2], rng.choice(PLAIN_KINDS), leaning[2]]
        self.at_fault = self.anchor + at_fault
        counts = [rng.randint(0, 3) for _ in kinds]
        counts[self.at_fault] = rng.randint(67, min(N, 128))
        self.parts = make_file(rng, N, kinds, counts)
        self.list = self.parts.records[self.at_fault].list

    def broken(self, *rules):
        """The subject once these rules of its list are broken."""
        break_rules(self.parts.N, self.list, rules)
        return subject_of(self.parts, self.at_fault)


def on_variant(rng, call, subject, variant):
    """A call on the file, of this variant where it is of one."""
    if call == ROWS:
        return whole_walk(rng, subject)
    case = file_case(rng, call, subject)
    return case._replace(x=variant) if call in ON_ONE_VARIANT else case


def rule_cases(rng):
    """Each rule broken in an anchor, of which a leaning record is asked for, and in a leaning record itself, with every call that checks a record; and in
    steps after a start on the right file."""
    for _, rule, _ in RULES:
        for at_fault in (0, 1):
            for call in ON_RECORDS:
                its_file = Leaning(rng, at_fault)
                subject = its_file.broken(somewhere(rng, its_file.list, rule))
                yield on_variant(rng, call, subject, its_file.anchor + 1)
            its_file = Leaning(rng, at_fault)
            right = subject_of(its_file.parts, its_file.at_fault)
            steps = its_file.broken(somewhere(rng, its_file.list, rule))
            yield elsewhere(rng, right, steps.file)._replace(x=right.M)


def pair_cases(rng):
    """Each two rules broken in one list, so that their order decides, in one call after another."""
    two_groups = ListParts(100, [(sample, 1) for sample in range(100)], [])
    for turn, rules in enumerate(pairs_of_rules(two_groups)):
        its_file = Leaning(rng, turn % 2)
        yield on_variant(rng, ON_RECORDS[turn % len(ON_RECORDS)], its_file.broken(*rules), its_file.anchor + 1)


def beside_cases(rng):
    """A leaning record is at fault, and nobody checks it: its anchor is asked for, another that leans on that, one behind, or a view."""
    for _, rule, _ in RULES:
        its_file = Leaning(rng, 1)
        subject = its_file.broken(somewhere(rng, its_file.list, rule))
        for call, behind in ((READ, 0), (PHASES, 2), (LOOKUP, 4), (VIEW, 1)):
            yield on_variant(rng, call, subject, its_file.anchor + behind)


def with_wrong_types(rng, halves):
    """A right file with types of 4 bits, and the same with wrong types in these halves of a byte, and now and then in a later byte."""
    M = rng.randrange(4, 12)
    parts = make_file(rng, rng.choice([1, 5, 9]), [rng.choice(PLAIN_KINDS) for _ in range(M)], [None] * M)
    parts.form &= ~4
    joined, marks = join_file(parts)
    file, variant = bytearray(joined), 2 * rng.randrange(M // 2)
    wrong_halves(rng, file, marks, variant, halves)
    if variant + 3 < M and rng.random() < 0.5:
        wrong_halves(rng, file, marks, variant + 2, rng.choice(HALVES))
    return subject_of(parts, variant), Subject(bytes(file), M, parts.N, variant, parts.types)


def type_cases(rng):
    """A byte of two types, of which one is wrong or both, with every call; and in steps after a start on the right file."""
    for halves in HALVES:
        for call in [*FILE_CALLS, PHASES, ROWS]:
            _, subject = with_wrong_types(rng, halves)
            yield on_variant(rng, call, subject, rng.randrange(subject.M))
        right, subject = with_wrong_types(rng, halves)
        yield elsewhere(rng, right, subject.file)._replace(x=right.M)


def number_cases(rng):
    """A lookup of a sample, of a variant, and of both, that are not there; each number at its limit and above."""
    subject = subject_of(make_file(rng, 9, [0, 2, 4, 1, 3], [3] * 5), 3)
    for x, y in ((3, 9), (4, 10), (0, 9), (5, 8), (5, 9), (6, 10), ((1 << 32) + 3, 9), (3, (1 << 32) + 3), ((1 << 64) - 1, (1 << 64) - 1)):
        yield Case(LOOKUP, x, y, subject.file, work=9)


def variant_sweep(rng):
    """All of them."""
    yield from rule_cases(rng)
    yield from pair_cases(rng)
    yield from beside_cases(rng)
    yield from type_cases(rng)
    yield from number_cases(rng)
