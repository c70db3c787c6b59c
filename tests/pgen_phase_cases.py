"""Cases of Ask 1: every call on files with phase tracks, valid and damaged, the reading of phases on the other files too, and the writer of phases."""

from itertools import combinations, product

from pgen_cases import (ARGUMENT_FAULTS, FILE_CALLS, FLIP, GREATEST_OUTPUT, LOOKUP, PHASES, READ, READS, WHOLE_FILE, WRITE_PHASED, Case,
                        anchor_of_wrong_size, category_above_3, code_wrong, file_case, header_fault_subject, kind_wrong, near, partial_subject,
                        record_fault_subject, subject_of, valid_subject, with_argument_faults, writer_case)
from pgen_generate import ALL_KINDS, PLAIN_KINDS, make_file
from pgen_header import LEANING_KINDS, PHASED
from pgen_header_damage import HEADER_FAULTS
from pgen_parts import FileParts, TrackParts, join_file
from pgen_phase_damage import TRACK_FAULTS, upper_bit
from pgen_phase_generate import (FOCUS_CALLS, STYLES, WIDE_TYPES, all_phased, choose_track, focused_phased_file, leaning_near, none_phased,
                                 random_phased_file, record_of, row_of, some_phased, with_tracks)
from pgen_record import PAIRS
from pgen_record_damage import RECORD_FAULTS
from pgen_reference import write_phased_record
from pgen_row_cases import elsewhere, rows_on, whole_walk

CALLS_ON_TRACKS = [WHOLE_FILE, READ, PHASES, LOOKUP, FLIP]
WRITTEN_STYLES = [all_phased, none_phased, some_phased]


def phased_subject(rng):
    """A valid file with tracks."""
    return subject_of(random_phased_file(rng), None, rng)


def on_subject(rng, call, subject):
    """A call on the file, of a variant that has the fault where it is of one."""
    case = file_case(rng, call, subject)
    return case._replace(x=subject.variant) if call in (*READS, LOOKUP) else case


def members_around(rng, subject):
    """A flip of the variant of interest, of its neighbours, or of both."""
    case = file_case(rng, FLIP, subject)
    bits = (rng.getrandbits(subject.M) & ~(1 << subject.variant)) | rng.choice([0, 1, 1]) << subject.variant
    return case._replace(second=bits.to_bytes(len(case.second), "little"))


def focus_cases(rng):
    """Every kind with H around the ends of a byte and every style of track: its phases, and a flip, a walk or a read."""
    others = [members_around, whole_walk, members_around, lambda rng, subject: on_subject(rng, READ, subject)]
    turn = 0
    for kind in ALL_KINDS:
        for H in FOCUS_CALLS:
            for style in STYLES:
                subject = subject_of(*focused_phased_file(rng, kind, H, style))
                yield on_subject(rng, PHASES, subject)
                if turn % 3 == 0:
                    yield others[turn % len(others)](rng, subject)
                turn += 1


def long_list_cases(rng):
    """Leaning records with a track whose lists have one group, one more entry, and three groups: each entry may change H."""
    for kind in LEANING_KINDS:
        for count in (64, 65, 130):
            parts = make_file(rng, rng.choice([130, 256, 257, 300]), [rng.choice(PLAIN_KINDS), kind], [None, count])
            subject = subject_of(with_tracks(rng, parts, 1), 1)
            for call in (WHOLE_FILE, PHASES, FLIP):
                yield on_subject(rng, call, subject)


def track_fault_cases(rng):
    """Every fault of a track with every call that checks a record, and in a walk."""
    for fault in TRACK_FAULTS:
        for call in CALLS_ON_TRACKS:
            yield on_subject(rng, call, record_fault_subject(rng, fault))
        yield whole_walk(rng, record_fault_subject(rng, fault))


def membership_cases(rng):
    """Flips of a leaning record with a track, of its anchor, of both and of neither."""
    for kind, member, anchor in product(LEANING_KINDS, (0, 1), (0, 1)):
        subject = subject_of(*focused_phased_file(rng, kind, rng.choice(FOCUS_CALLS[1:]), some_phased))
        yield file_case(rng, FLIP, subject)._replace(second=bytes([member << subject.variant | anchor]))


def upper_bit_cases(rng):
    """Each other upper bit beside bit 4, with every call."""
    for bit in (8, 32, 64, 128):
        for call in FILE_CALLS + [PHASES]:
            yield file_case(rng, call, record_fault_subject(rng, lambda rng, bit=bit: upper_bit(rng, (bit,))))


def other_fault_cases(rng):
    """The reading of phases with every other fault; every fault of a header in a file with tracks, in one call after another."""
    for fault in RECORD_FAULTS:
        yield on_subject(rng, PHASES, record_fault_subject(rng, fault))
    for turn, fault in enumerate(HEADER_FAULTS):
        yield file_case(rng, PHASES, header_fault_subject(rng, fault))
        yield file_case(rng, FILE_CALLS[turn % len(FILE_CALLS)], header_fault_subject(rng, fault, random_phased_file))
    for fault in ARGUMENT_FAULTS:
        subject = partial_subject(rng)
        yield fault(rng, file_case(rng, PHASES, subject), subject)


def tracks_elsewhere(rng):
    """A start on one file, steps on one with another row under its leaning records: their H is then another."""
    N = rng.choice([5, 8, 9, 17, 64])
    files = []
    anchor = row_of(rng, N, rng.randint(0, N))
    leaning = [record_of(rng, leaning_near(rng, kind, anchor), kind, anchor) for kind in [rng.choice(LEANING_KINDS) for _ in range(rng.randint(1, 4))]]
    for record in leaning:
        record.track = choose_track(rng, record.categories)
    for row in (anchor, leaning_near(rng, 2, anchor)):
        records = [record_of(rng, row, rng.choice(PLAIN_KINDS)), *leaning]
        records[0].track = rng.choice([None, choose_track(rng, row)])
        files.append(FileParts(0x10, 0x40 | WIDE_TYPES, N, records, []))
    return elsewhere(rng, subject_of(files[0], 0), join_file(files[1])[0])


def spread_over(rng, categories, style):
    """Phases of this style for the heterozygous ones of these categories."""
    phases = iter(style(rng, bytes(categories).count(1))[1])
    return bytes(next(phases) if category == 1 else 0 for category in categories)


def phased_writer_case(rng):
    """A case of the writer of phases in which all is allowed, but for a count of 0."""
    case = writer_case(rng)
    return case._replace(call=WRITE_PHASED, third=spread_over(rng, case.first, rng.choice(WRITTEN_STYLES)))


def focused_writer_case(rng, kind, H, style):
    """All is allowed; H heterozygous calls, with phases of a style."""
    categories = row_of(rng, max(1, H + rng.choice([0, 1, 9])), H)
    anchor = leaning_near(rng, kind, categories) if kind in LEANING_KINDS else b""
    code = rng.choice(sorted(PAIRS)) if kind == 1 else 0
    return Case(WRITE_PHASED, kind, code, categories, anchor, third=spread_over(rng, categories, style))


def type_for_kind(rng, case):
    return case._replace(x=case.x | PHASED)


def phases_of_wrong_size(rng, case):
    return case._replace(third=rng.choice([b"", case.third[:-1], case.third + b"\0", case.third + b"\3", case.third * 2] if case.third else [b"\0"]))


def put_phase(rng, case, samples, values):
    """Some of these samples with one of these phases."""
    phases = bytearray(case.third)
    for sample in rng.sample(samples, min(len(samples), rng.choice([1, 1, 2]))):
        phases[sample] = rng.choice(values)
    return case._replace(third=bytes(phases))


def phase_above_2(rng, case):
    calls = [i for i, category in enumerate(case.first[:len(case.third)]) if category == 1]
    return put_phase(rng, case, calls if calls and rng.random() < 0.7 else range(len(case.third)), [3, 3, 4, 128, 254, 255])


def phase_outside_category_1(rng, case):
    return put_phase(rng, case, [i for i, category in enumerate(case.first[:len(case.third)]) if category != 1], [1, 2, 2, 3])


PHASED_WRITER_FAULTS = [
    kind_wrong, type_for_kind, code_wrong, anchor_of_wrong_size, phases_of_wrong_size, category_above_3, phase_above_2, phase_outside_category_1,
]


def with_phased_output(rng, case):
    """An output that is exact, one short, longer or of any size."""
    number, _, _, count, _ = write_phased_record(case.first, case.third, case.x, case.y, case.second, bytes(GREATEST_OUTPUT))
    size = rng.choice([count, count, max(0, count - 1), count + 1, count + 9, rng.randint(0, count)])
    return case._replace(output=rng.choice([0, 1, len(case.first), 2 * len(case.first) + 16]) if number else size)


def nonempty(rng, make):
    """A case with categories."""
    while True:
        case = make(rng)
        if case.first:
            return case


def writer_cases(rng):
    """Every kind with H around the ends of a byte; each fault, and each two of them, in either order, so that document 02's order decides."""
    for kind in ALL_KINDS:
        for H in FOCUS_CALLS:
            case = focused_writer_case(rng, kind, H, rng.choice(WRITTEN_STYLES))
            yield with_phased_output(rng, case)
    for fault in PHASED_WRITER_FAULTS:
        for _ in range(3):
            yield with_phased_output(rng, fault(rng, nonempty(rng, phased_writer_case)))
    for one, other in combinations(PHASED_WRITER_FAULTS, 2):
        yield with_phased_output(rng, other(rng, one(rng, nonempty(rng, phased_writer_case))))
    for _ in range(4):
        yield with_phased_output(rng, phased_writer_case(rng)._replace(first=b"", third=b""))


def random_phased_writer_case(rng):
    """Any case of the writer of phases."""
    case = phased_writer_case(rng)
    if rng.random() < 0.35 and case.first:
        for fault in rng.sample(PHASED_WRITER_FAULTS, rng.choice([1, 1, 2])):
            case = fault(rng, case)
    return with_phased_output(rng, case)


def any_subject(rng):
    """A file with tracks, valid or with a fault; now and then one without."""
    roll = rng.random()
    if roll < 0.4:
        return phased_subject(rng)
    if roll < 0.75:
        return record_fault_subject(rng, rng.choice(TRACK_FAULTS + [upper_bit]))
    if roll < 0.9:
        return header_fault_subject(rng, rng.choice(HEADER_FAULTS), random_phased_file)
    return rng.choice([valid_subject(rng), record_fault_subject(rng, rng.choice(RECORD_FAULTS))])


def random_phase_case(rng):
    """Any case of Ask 1."""
    roll = rng.random()
    if roll < 0.2:
        return random_phased_writer_case(rng)
    if roll < 0.25:
        return tracks_elsewhere(rng)
    subject = any_subject(rng)
    if roll < 0.4:
        return rows_on(rng, subject)
    call = rng.choice(FILE_CALLS + [PHASES, PHASES, PHASES, READ, FLIP, WHOLE_FILE])
    return with_argument_faults(rng, file_case(rng, call, subject), subject)


def phase_sweep(rng):
    """Every kind, every fault, every refusal; walks with a state of another file."""
    yield from focus_cases(rng)
    yield from membership_cases(rng)
    yield from long_list_cases(rng)
    yield from track_fault_cases(rng)
    yield from upper_bit_cases(rng)
    yield from other_fault_cases(rng)
    yield from writer_cases(rng)
    for _ in range(12):
        yield tracks_elsewhere(rng)


def phase_limits(rng):
    """N of 65,536, all of them heterozygous, read, flipped and written; N of 256 and 257."""
    N = 65536
    row = bytes([1]) * N
    for style in (all_phased, some_phased):
        record = record_of(rng, row, 0)
        record.track = TrackParts(*style(rng, N))
        file = join_file(FileParts(0x10, WIDE_TYPES, N, [record], []))[0]
        yield Case(PHASES, first=file, output=N, work=N)
        yield Case(FLIP, first=file, second=b"\1", work=N)
        yield Case(WRITE_PHASED, 0, 0, row, b"", 40000, third=spread_over(rng, row, style))
    for N in (256, 257):
        subject = subject_of(random_phased_file(rng, N, 6), None, rng)
        yield whole_walk(rng, subject)
        yield members_around(rng, subject)
        yield on_subject(rng, PHASES, subject)
    categories = near(rng, bytes(N))
    yield with_phased_output(rng, Case(WRITE_PHASED, 4, 0, categories, third=spread_over(rng, categories, some_phased)))
    yield Case(WRITE_PHASED, 4, 0, bytes(65537), third=bytes(65537))


def phase_cases(rng):
    """The sweep, and then random cases without end."""
    yield from phase_sweep(rng)
    while True:
        yield random_phase_case(rng)
