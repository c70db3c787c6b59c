"""Cases for the seven calls of document 01: valid and damaged files, and arguments in and out of range."""

from typing import NamedTuple

from pgen_generate import choose_categories, choose_count, choose_samples, random_file, tiny_file
from pgen_header import leans
from pgen_header_damage import HEADER_FAULTS, faulted
from pgen_parts import join_file
from pgen_record import PAIRS, exchange
from pgen_record_damage import RECORD_FAULTS
from pgen_reference import write_record

HEADER, WHOLE_FILE, READ, LOOKUP, VIEW, WRITE, FLIP, PHASES, WRITE_PHASED = range(1, 10)
ROWS = 23
FILE_CALLS = [HEADER, WHOLE_FILE, READ, LOOKUP, VIEW, FLIP]
READS = (READ, PHASES)
ON_ONE_VARIANT = (*READS, LOOKUP, VIEW)
WITH_WORK_AREA = (WHOLE_FILE, *READS, LOOKUP, FLIP)
GREATEST_OUTPUT = 131072
WRITER_N = [0, 1, 1, 2, 3, 4, 5, 7, 8, 9, 63, 64, 65, 127, 128, 129, 255, 256, 257, 300]


class Case(NamedTuple):
    """One call: its numbers, its byte strings, and the sizes of what it is lent; only a writer of phases has a third string."""

    call: int
    x: int = 0
    y: int = 0
    first: bytes = b""
    second: bytes = b""
    output: int = 0
    work: int = 0
    third: bytes = b""


class Subject(NamedTuple):
    """A file with the M and N it had before damage, and the variant of interest."""

    file: bytes
    M: int
    N: int
    variant: int
    types: list


def subject_of(parts, variant=None, rng=None):
    """The subject for a file in parts."""
    file, _ = join_file(parts)
    variant = rng.randrange(parts.M()) if variant is None else variant
    return Subject(file, parts.M(), parts.N, variant, parts.types)


def valid_subject(rng):
    """A valid file."""
    if rng.random() < 0.01:
        return subject_of(tiny_file(rng, rng.choice([255, 256, 257, 1000])), None, rng)
    return subject_of(random_file(rng), None, rng)


def record_fault_subject(rng, fault):
    """A file with a fault in a record."""
    parts, variant = fault(rng)
    return subject_of(parts, variant)


def header_fault_subject(rng, fault, make=random_file):
    """A file with a fault in its header, or anywhere."""
    parts, _, file = faulted(rng, fault, make)
    return Subject(file, parts.M(), parts.N, rng.randrange(parts.M()), parts.types)


def far_above(rng, limit):
    """A number at, above or far above its limit."""
    return rng.choice([
        limit, limit, limit + 1, limit + rng.randrange(256), 65536 + limit, 1 << 32,
        (1 << 32) + rng.randrange(limit), 1 << 63, (1 << 64) - 1, (1 << 64) - limit,
    ])


def choose_variant(rng, subject):
    """The variant of interest, one that leans on it, or any other."""
    roll = rng.random()
    leaning = []
    for later in range(subject.variant + 1, subject.M):
        if not leans(subject.types[later]):
            break
        leaning.append(later)
    if leaning and roll < 0.25:
        return rng.choice(leaning)
    return subject.variant if roll < 0.85 else rng.randrange(subject.M)


def lent_size(rng, N):
    """A size that is enough: exact or longer."""
    return N + rng.choice([0, 0, 1, 2, 3, 7, 17])


def short_size(rng, N):
    """A size that is not enough."""
    return rng.choice([N - 1, N - 1, 0, rng.randrange(N)])


def choose_set(rng, M):
    """A flip set without bits past the last variant."""
    share = rng.choice([0, 0.1, 0.5, 0.5, 0.9, 1])
    bits = sum((rng.random() < share) << variant for variant in range(M))
    return bits.to_bytes(-(-M // 8), "little")


def file_case(rng, call, subject):
    """A call on a file with arguments that are in range."""
    case = Case(call, first=subject.file)
    if call in ON_ONE_VARIANT:
        case = case._replace(x=choose_variant(rng, subject))
    if call == LOOKUP:
        case = case._replace(y=rng.choice([0, subject.N - 1, rng.randrange(subject.N)]))
    if call in READS:
        case = case._replace(output=lent_size(rng, subject.N))
    if call in WITH_WORK_AREA:
        case = case._replace(work=lent_size(rng, subject.N))
    if call == FLIP:
        case = case._replace(second=choose_set(rng, subject.M))
    return case


def work_short(rng, case, subject):
    if case.call in WITH_WORK_AREA:
        return case._replace(work=short_size(rng, subject.N))
    return case


def output_short(rng, case, subject):
    if case.call in READS:
        return case._replace(output=short_size(rng, subject.N))
    return case


def variant_above(rng, case, subject):
    if case.call in ON_ONE_VARIANT:
        return case._replace(x=far_above(rng, subject.M))
    return case


def sample_above(rng, case, subject):
    if case.call == LOOKUP:
        return case._replace(y=far_above(rng, subject.N))
    return case


def set_of_wrong_size(rng, case, subject):
    if case.call == FLIP:
        right = case.second
        wrong = [right + b"\0", right + b"\1", right[:-1], b"", right + bytes(right)]
        return case._replace(second=rng.choice(wrong))
    return case


def set_past_the_last(rng, case, subject):
    if case.call == FLIP and subject.M % 8 and case.second:
        bits = bytearray(case.second)
        bits[-1] |= 1 << rng.randrange(subject.M % 8, 8)
        return case._replace(second=bytes(bits))
    return case


ARGUMENT_FAULTS = [
    work_short, output_short, variant_above, sample_above, set_of_wrong_size, set_past_the_last,
]


def with_argument_faults(rng, case, subject):
    """Sometimes one or more arguments out of range."""
    if rng.random() < 0.12:
        for fault in rng.sample(ARGUMENT_FAULTS, rng.randint(1, 3)):
            case = fault(rng, case, subject)
    return case


def near(rng, categories):
    """Categories that differ from these for some samples."""
    later = bytearray(categories)
    for sample in choose_samples(rng, len(later), choose_count(rng, len(later))):
        later[sample] = rng.randrange(4)
    return bytes(later)


def near_base(rng, N):
    """Categories mostly of one or two values, so that lists are of every count."""
    one, other = rng.randrange(4), rng.randrange(4)
    under = bytes(rng.choice([one, other]) for _ in range(N))
    return near(rng, rng.choice([under, bytes([one]) * N]))


def writer_case(rng):
    """A writer's case in which all is allowed, but for a count of 0."""
    N = rng.choice(WRITER_N) if rng.random() < 0.97 else rng.choice([700, 3000])
    categories = choose_categories(rng, N) if rng.random() < 0.3 else near_base(rng, N)
    kind = rng.choice([0, 1, 1, 2, 2, 3, 3, 4, 6, 7])
    code = rng.choice(sorted(PAIRS)) if kind == 1 else 0
    anchor = b""
    if kind in (2, 3):
        anchor = near(rng, exchange(categories) if kind == 3 else categories)
    return Case(WRITE, kind, code, categories, anchor)


def kind_wrong(rng, case):
    return case._replace(x=rng.choice([5, 8, 9, 12, 255, 256 + case.x, (1 << 32) + case.x,
                                       (1 << 63) + case.x, (1 << 64) - 1]))


def code_wrong(rng, case):
    if case.x == 1:
        wrong = [0, 4, 7, 8, 10, 15, 255, 256 + case.y, (1 << 32) + case.y, (1 << 64) - 1]
        return case._replace(y=rng.choice(wrong))
    return case._replace(y=rng.choice([1, 2, 9, 255, 256, 1 << 32, (1 << 64) - 1]))


def anchor_of_wrong_size(rng, case):
    if case.x in (2, 3):
        return case._replace(second=rng.choice([b"", case.second[:-1], case.second + b"\0",
                                                case.second * 2]))
    return case._replace(second=rng.choice([b"\0", b"\4", case.first or b"\1"]))


def category_above_3(rng, case):
    buffers = [name for name in ("first", "second") if getattr(case, name)]
    for name in rng.sample(buffers, rng.randint(min(1, len(buffers)), len(buffers))):
        data = bytearray(getattr(case, name))
        for _ in range(rng.choice([1, 1, 2])):
            place = rng.choice([0, len(data) - 1, rng.randrange(len(data))])
            data[place] = rng.choice([4, 4, 5, 6, 7, 8, 16, 64, 128, 255])
        case = case._replace(**{name: bytes(data)})
    return case


WRITER_FAULTS = [
    kind_wrong, code_wrong, anchor_of_wrong_size, category_above_3, category_above_3,
]


def with_output(rng, case):
    """An output that is exact, one short, longer or of any size."""
    number, _, _, count, _ = write_record(case.first, case.x, case.y, case.second, bytes(GREATEST_OUTPUT))
    size = rng.choice([count, count, max(0, count - 1), count + 1, count + 9, rng.randint(0, count)])
    if number:
        size = rng.choice([0, 1, len(case.first), 2 * len(case.first) + 16])
    return case._replace(output=size)


def random_writer_case(rng):
    """Any writer's case."""
    case = writer_case(rng)
    if rng.random() < 0.35:
        for fault in rng.sample(WRITER_FAULTS, rng.choice([1, 1, 2])):
            case = fault(rng, case)
    return with_output(rng, case)


def random_case(rng):
    """Any case."""
    if rng.random() < 0.15:
        return random_writer_case(rng)
    roll = rng.random()
    if roll < 0.4:
        subject = valid_subject(rng)
    elif roll < 0.75:
        subject = record_fault_subject(rng, rng.choice(RECORD_FAULTS))
    else:
        subject = header_fault_subject(rng, rng.choice(HEADER_FAULTS))
    call = rng.choice(FILE_CALLS + [READ, LOOKUP, WHOLE_FILE, FLIP])
    return with_argument_faults(rng, file_case(rng, call, subject), subject)


def partial_subject(rng):
    """A valid file whose flip set has unused bits."""
    while True:
        subject = valid_subject(rng)
        if subject.M % 8:
            return subject


def sweep(rng):
    """Every fault with every call, so that each call reaches each number it can give."""
    for call in FILE_CALLS:
        for fault in RECORD_FAULTS:
            subject = record_fault_subject(rng, fault)
            case = file_case(rng, call, subject)
            yield case._replace(x=subject.variant) if call in (READ, LOOKUP) else case
        for fault in HEADER_FAULTS:
            yield file_case(rng, call, header_fault_subject(rng, fault))
        for fault in ARGUMENT_FAULTS:
            subject = partial_subject(rng)
            yield fault(rng, file_case(rng, call, subject), subject)
    for fault in WRITER_FAULTS:
        for _ in range(4):
            yield with_output(rng, fault(rng, writer_case(rng)))
