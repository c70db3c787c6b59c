"""The files of the comparison at scale: file K of seed S is drawn by a generator of its own, so that it can be made alone."""

import random
from pathlib import Path

from pgen_cases import (FILE_CALLS, GREATEST_OUTPUT, LOOKUP, PHASES, READ, WRITE, Case, Subject, file_case, header_fault_subject, near_base,
                        random_writer_case, record_fault_subject, subject_of, valid_subject, with_argument_faults, with_output)
from pgen_generate import random_file, tiny_file
from pgen_header import BLOCK_SIZE, Header
from pgen_header_damage import HEADER_FAULTS, changed_anywhere, offset_wrong, put
from pgen_list_damage import any_step, with_list
from pgen_parts import join_file
from pgen_phase_cases import phased_subject, random_phased_writer_case
from pgen_phase_damage import TRACK_FAULTS, upper_bit
from pgen_phase_generate import random_phased_file
from pgen_record import PAIRS
from pgen_record_damage import RECORD_FAULTS
from pgen_row_cases import rows_on

MANY_VARIANTS_EVERY = 1000
MANY_SAMPLES_EVERY = 500
LONG_WRITER_EVERY = 500
EDGE_VARINTS = ["ffffffff0f", "8080808010", "8180808010", "ffffffff7f", "8080808080", "808080808001", "8080808000", "8080808001", "80808001",
                "ffffff7f", "8000", "ff00", "80", "ffffffff"]
REAL_NAMES = ("five", "herd", "long_lists", "plain", "two_byte_numbers", "part_phased")
REAL = [(Path(__file__).resolve().parent / "real" / f"{name}.pgen").read_bytes() for name in REAL_NAMES]


def many_variants(rng):
    """A file whose variants reach or cross the end of a block, of any form and mode; half of them with a fault in the header, often an offset, a third with
    one in the record of the variant of interest, which is often near that end."""
    M = BLOCK_SIZE * rng.choice([1, 1, 1, 1, 2]) + rng.choice([-1, 0, 1, 2, 3, 9])
    ending = tuple(rng.choice([0, 2, 2, 3, 3, 4, 6, 7]) for _ in range(rng.randint(0, 4)))
    mode = rng.choice([0x10, 0x10, 0x10, 0x02])
    low = rng.choice([0, 4] if M > BLOCK_SIZE + 9 else range(8))
    form = rng.randrange(4) << 6 | (low if mode == 0x10 else 0)
    parts = tiny_file(rng, M, ending if mode == 0x10 else (), mode, form)
    near_the_end = [BLOCK_SIZE - 2, BLOCK_SIZE - 1, BLOCK_SIZE, BLOCK_SIZE + 1, M - 1, rng.randrange(M)]
    variant = rng.choice([v for v in near_the_end if v < M])
    if rng.random() < 0.33:
        wrong = [b"", b"\0\0", b"\5", b"\x80", bytes([1, parts.N, 1]), b"\2\0\5\0"]
        parts.records[variant].whole = rng.choice(wrong) if mode == 0x10 else b"\xff"
    joined, marks = join_file(parts)
    file = bytearray(joined)
    if rng.random() < 0.5:
        marks.offsets = marks.offsets[rng.choice([0, -1]):]
        rng.choice([offset_wrong, rng.choice(HEADER_FAULTS)])(rng, file, marks)
    return Subject(bytes(file), M, parts.N, variant, parts.types)


def many_samples(rng):
    """A file with N at the greatest or one below it; some say that N is one above it."""
    parts = random_file(rng, N=rng.choice([65535, 65536]), M=rng.randint(1, 2))
    subject = subject_of(parts, None, rng)
    if rng.random() < 0.2:
        return subject._replace(file=subject.file[:7] + (65537).to_bytes(4, "little") + subject.file[11:], N=65537)
    return subject


def real_changed(rng):
    """A file made by plink2, with bytes changed, put in or taken out."""
    real = rng.choice(REAL)
    header = Header(real)
    header.find_types()
    file = bytearray(real)
    changed_anywhere(rng, file, None)
    return Subject(bytes(file), header.M, header.N, rng.randrange(header.M), list(header.types))


def edge_varint(rng):
    """A count or a step at an edge of what a varint may be."""
    parts, variant, its_list = with_list(rng, 2)
    data = bytes.fromhex(rng.choice(EDGE_VARINTS))
    if rng.random() < 0.5:
        its_list.count = data
    else:
        group, step, _ = any_step(rng, its_list)
        its_list.steps[group][step] = data
    return subject_of(parts, variant)


def edge_header(rng):
    """The form, M or N at an edge of what it may be."""
    parts = random_file(rng, N=rng.choice([1, 4, 5, 255, 256, 257]))
    joined, _ = join_file(parts)
    file = bytearray(joined)
    place, value, size = rng.choice([
        (11, file[11] & 0xc0 | rng.choice([7, 8, 8, 8, 9, 15, 16, 32]), 1), (3, rng.choice([1, 65536, 65537, 16777215, 16777216, 16777217, 16777217]), 4),
        (7, rng.choice([1, 255, 256, 257, 65535, 65536, 65537, 65537]), 4)])
    put(file, place, value, size)
    return Subject(bytes(file), parts.M(), parts.N, rng.randrange(parts.M()), parts.types)


def record_and_header_fault(rng):
    """A fault in a record and one in the header, so that their order decides."""
    parts, variant = rng.choice(RECORD_FAULTS)(rng)
    joined, marks = join_file(parts)
    file = bytearray(joined)
    rng.choice(HEADER_FAULTS)(rng, file, marks)
    return Subject(bytes(file), parts.M(), parts.N, variant, parts.types)


def edge_cases(rng):
    """Every call on files with something at an edge."""
    for call in FILE_CALLS:
        for family in (edge_varint, edge_header, record_and_header_fault, real_changed):
            subject = family(rng)
            case = file_case(rng, call, subject)
            yield case._replace(x=subject.variant) if call in (READ, LOOKUP) else case
    for _, family in FAMILIES:
        yield rows_on(rng, family(rng))


FAMILIES = [("a record and the header", record_and_header_fault), ("a plink2 file changed", real_changed), ("a varint at an edge", edge_varint),
            ("form, M or N at an edge", edge_header)]


def chosen_with_tracks(rng):
    """The same for a file that has phase tracks."""
    roll = rng.random()
    if roll < 0.45:
        return "none: a valid file with tracks", phased_subject(rng)
    if roll < 0.85:
        fault = rng.choice(TRACK_FAULTS + [upper_bit])
        return f"track: {fault.__name__}", record_fault_subject(rng, fault)
    fault = rng.choice(HEADER_FAULTS)
    return f"header: {fault.__name__}", header_fault_subject(rng, fault, random_phased_file)


def chosen(rng, number):
    """The name of the damage, and the file."""
    if number % MANY_VARIANTS_EVERY == 0:
        return "M near or above 65,536", many_variants(rng)
    if number % MANY_SAMPLES_EVERY == 1:
        return "N near 65,536", many_samples(rng)
    if rng.random() < 0.3:
        return chosen_with_tracks(rng)
    roll = rng.random()
    if roll < 0.36:
        return "none: a valid file", valid_subject(rng)
    if roll < 0.67:
        fault = rng.choice(RECORD_FAULTS)
        return f"record: {fault.__name__}", record_fault_subject(rng, fault)
    if roll < 0.9:
        fault = rng.choice(HEADER_FAULTS)
        return f"header: {fault.__name__}", header_fault_subject(rng, fault)
    name, family = rng.choice(FAMILIES)
    return name, family(rng)


def long_writer_case(rng):
    """A record of some 65,536 categories to be written."""
    categories = near_base(rng, rng.choice([65535, 65536, 65536, 65537]))
    kind = rng.choice([0, 1, 4, 6, 7])
    case = Case(WRITE, kind, rng.choice(sorted(PAIRS)) if kind == 1 else 0, categories)
    if len(categories) > 65536:  # refused, whatever the output is
        return case._replace(output=rng.randrange(9))
    case = with_output(rng, case)
    return case._replace(output=min(case.output, GREATEST_OUTPUT))


def cases_of(seed, number):
    """File `number` of a seed: the name of its damage, and its cases: each call on it, a record and a phased one to be written, and rows."""
    rng = random.Random(f"{seed}/{number}")
    name, subject = chosen(rng, number)
    cases = [with_argument_faults(rng, file_case(rng, call, subject), subject) for call in FILE_CALLS + [PHASES]]
    cases.append(long_writer_case(rng) if number % LONG_WRITER_EVERY == 2 else random_writer_case(rng))
    cases.append(random_phased_writer_case(rng))
    cases.append(rows_on(rng, subject))
    return name, cases
