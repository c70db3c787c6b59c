"""Cases of rows: whole walks, damaged records, states of another file, buffers that are too short.

A walk starts on a file and makes x steps. With a second string it starts on that file and steps on the first.
"""

from pgen_cases import (GREATEST_OUTPUT, ROWS, Case, header_fault_subject, lent_size, record_fault_subject,
                        short_size, subject_of, valid_subject)
from pgen_generate import FORMS, PLAIN_KINDS, SMALL_N, choose_kinds, make_file, make_records, random_file, tiny_file
from pgen_header import BLOCK_SIZE, LEANING_KINDS, leans
from pgen_header_damage import HEADER_FAULTS, changed_anywhere, cut_header, cut_records, faulted, put
from pgen_parts import FileParts, RecordParts, join_file
from pgen_record_damage import RECORD_FAULTS

GREATEST_STEPS = 64
GREATEST_PRINTED = 20000
GREATEST_START = GREATEST_OUTPUT  # a second string is no longer than an output
SHORT = (("output",), ("work",), ("output", "work"))


def choose_steps(rng, M, N):
    """How many steps: mostly to the last variant or past it, and so few that the line is not too long."""
    wished = rng.choice([M, M, M + 1, M + 1, M + 2, rng.randint(0, M), rng.randint(0, M + 9)])
    return min(wished, GREATEST_STEPS, max(2, GREATEST_PRINTED // N))


def walk(rng, subject):
    """Steps on the file of the start."""
    return Case(ROWS, choose_steps(rng, subject.M, subject.N), first=subject.file,
                output=lent_size(rng, subject.N), work=lent_size(rng, subject.N))


def whole_walk(rng, subject):
    """Steps to the last variant, or past it."""
    return walk(rng, subject)._replace(x=min(GREATEST_STEPS, subject.M + rng.randrange(3)))


def elsewhere(rng, subject, file):
    """A start on the subject and steps on another file; where the subject can't be a second string, steps on itself."""
    case = walk(rng, subject)
    if 0 < len(subject.file) <= GREATEST_START:
        return case._replace(first=file, second=subject.file)
    return case


def short_buffers(rng, case, N, names):
    """These lent buffers too short."""
    return case._replace(**{name: short_size(rng, N) for name in names})


def form_walks(rng):
    """Walks over valid files of every mode and form."""
    for mode, forms in FORMS.items():
        for form in forms:
            M = rng.randint(1, 16)
            kinds = choose_kinds(rng, M) if mode == 0x10 else [0] * M
            parts = make_file(rng, rng.choice(SMALL_N + [63, 64, 65, 100]), kinds, [None] * M, mode)
            parts.form = form
            yield whole_walk(rng, subject_of(parts, 0))


def with_leaning_ones(rng, fault):
    """A fault, wherever it can be in a record that leans on none; then records that lean on it, and a new anchor with its own."""
    for _ in range(20):
        parts, variant = fault(rng)
        if not leans(parts.types[variant]):
            break
    leaning = [rng.choice(LEANING_KINDS) for _ in range(rng.randint(1, 4))]
    kinds = [0] + leaning + [rng.choice(PLAIN_KINDS)] + [rng.choice(LEANING_KINDS) for _ in range(rng.randint(0, 3))]
    records = make_records(rng, parts.N, kinds, [None] * len(kinds))[1:]
    if rng.random() < 0.4:
        record = rng.choice(records)
        record.whole = rng.choice([b"", record.join()[:-1], record.join() + b"\0"])
    after = variant + 1
    parts.records[after:after] = records
    parts.types[after:after] = kinds[1:]
    parts.flags[after:after] = [rng.randrange(2) for _ in records]
    return subject_of(parts, variant)


def faulty_elsewhere(rng, fault):
    """A start on a valid file, steps on it with a fault in the header, or anywhere."""
    parts, _, file = faulted(rng, fault)
    return elsewhere(rng, subject_of(parts, 0), file)


def cut_elsewhere(rng):
    """Steps on the file of the start, cut."""
    return faulty_elsewhere(rng, rng.choice([cut_header, cut_records, cut_records]))


def changed_elsewhere(rng, subject):
    """Steps on the file of the start with bytes changed, put in or taken out."""
    file = bytearray(subject.file)
    changed_anywhere(rng, file, None)
    return elsewhere(rng, subject, bytes(file))


def another_elsewhere(rng):
    """Two files that have nothing in common; sometimes one of them is damaged."""
    start, steps = valid_subject(rng), valid_subject(rng)
    roll = rng.random()
    if roll < 0.15:
        start = header_fault_subject(rng, rng.choice(HEADER_FAULTS))
    elif roll < 0.5:
        steps = record_fault_subject(rng, rng.choice(RECORD_FAULTS))
    return elsewhere(rng, start, steps.file)


def other_form_elsewhere(rng):
    """The same records with another form, so that types, lengths and records stand elsewhere."""
    parts = random_file(rng)
    subject = subject_of(parts, 0)
    parts.form = rng.choice(FORMS[parts.mode])
    return elsewhere(rng, subject, join_file(parts)[0])


def other_records_elsewhere(rng):
    """Another file of the same mode, M, N and form: every row can be read."""
    N, M = rng.choice(SMALL_N + [63, 64, 65, 100]), rng.randint(1, 12)
    start, steps = (make_file(rng, N, choose_kinds(rng, M), [None] * M) for _ in range(2))
    steps.form = start.form
    return elsewhere(rng, subject_of(start, 0), join_file(steps)[0])


def other_anchors_elsewhere(rng):
    """Steps on a file with other anchors than that of the start, whose categories the leaning records may list."""
    N, M = rng.choice(SMALL_N + [63, 64, 65, 100]), rng.randint(2, 12)
    kinds = [rng.choice(PLAIN_KINDS)] + [rng.choice(LEANING_KINDS * 4 + (0, 1)) for _ in range(M - 1)]
    parts = make_file(rng, N, kinds, [None] * M)
    subject = subject_of(parts, 0)
    others = make_records(rng, N, kinds, [None] * M)
    parts.records = [old if old.kind in LEANING_KINDS else new for old, new in zip(parts.records, others)]
    return elsewhere(rng, subject, join_file(parts)[0])


def other_mode_elsewhere(rng):
    """A start on a file of one mode, steps on one of the other with the same N."""
    N, M = rng.choice(SMALL_N), rng.randint(1, 9)
    files = [make_file(rng, N, [0] * M, [None] * M, mode) for mode in FORMS]
    rng.shuffle(files)
    return elsewhere(rng, subject_of(files[0], 0), join_file(files[1])[0])


def long_length_elsewhere(rng):
    """Steps on the file of the start with a length of four bytes that no record has."""
    N, M = rng.choice(SMALL_N), rng.randint(1, 9)
    parts = make_file(rng, N, choose_kinds(rng, M), [None] * M)
    parts.form |= 3
    joined, marks = join_file(parts)
    file, variant = bytearray(joined), rng.randrange(M)
    long = rng.choice([(1 << 32) - 1, (1 << 32) - marks.starts[variant], 1 << 31, 1 << 24, len(file)])
    put(file, marks.types[-1] + 1 + 4 * variant, long, 4)
    return elsewhere(rng, subject_of(parts, 0), bytes(file))


ELSEWHERE = [
    cut_elsewhere, another_elsewhere, other_form_elsewhere, other_records_elsewhere, other_anchors_elsewhere,
    other_mode_elsewhere, long_length_elsewhere,
]


def size_cases(rng):
    """Outputs and work areas that are too short."""
    for names in SHORT * 3:
        subject = valid_subject(rng)
        yield short_buffers(rng, walk(rng, subject), subject.N, names)
    subject = valid_subject(rng)
    case = elsewhere(rng, subject, valid_subject(rng).file)
    yield case._replace(output=subject.N - 1)
    yield case._replace(work=subject.N - 1)


def step_cases(rng):
    """The least and the greatest number of steps, with M around it."""
    for M in (1, 2, 63, 64, 65):
        parts = tiny_file(rng, M)
        for steps in (0, 1, GREATEST_STEPS):
            yield walk(rng, subject_of(parts, 0))._replace(x=steps)


def long_header(rng, form):
    """A file of 65,537 variants whose records are empty but for the first."""
    N, kinds = rng.choice([3, 5, 64]), [rng.choice(PLAIN_KINDS)] + choose_kinds(rng, 9)
    records = make_records(rng, N, kinds, [None] * len(kinds))
    records += [RecordParts(4, None) for _ in range(BLOCK_SIZE + 1 - len(records))]
    return FileParts(0x10, form, N, records, [rng.randrange(2) for _ in records])


def limit_walks(rng):
    """M of 65,537, where a header has two blocks; N of 65,536, of 256 and of 257."""
    parts = long_header(rng, 0xc0)
    subject = subject_of(parts, 0)
    yield walk(rng, subject)._replace(x=12)
    later = bytearray(subject.file)
    later[12:28] = rng.randbytes(16)
    later[-9:] = b""
    yield elsewhere(rng, subject, bytes(later))._replace(x=12)
    yield walk(rng, subject_of(tiny_file(rng, BLOCK_SIZE + 1, mode=0x02, form=0xc0), 0))._replace(x=3)
    yield walk(rng, subject_of(make_file(rng, 65536, [4, 3], [66, 130]), 0))._replace(x=2)
    for N in (256, 257):
        yield walk(rng, subject_of(make_file(rng, N, [0, 2, 3, 1], [None, 65, 66, 3]), 0))._replace(x=5)


def row_sweep(rng):
    """Every fault in a start, in a walk and in steps after a start elsewhere; every form; all edges."""
    yield from form_walks(rng)
    yield from size_cases(rng)
    yield from step_cases(rng)
    for fault in RECORD_FAULTS:
        yield walk(rng, record_fault_subject(rng, fault))
        yield whole_walk(rng, with_leaning_ones(rng, fault))
    for fault in HEADER_FAULTS:
        yield walk(rng, header_fault_subject(rng, fault))
        yield faulty_elsewhere(rng, fault)
    for family in ELSEWHERE:
        for _ in range(6):
            yield family(rng)


def rows_on(rng, subject):
    """A walk on a file that was chosen; sometimes it or the start is elsewhere, sometimes a buffer is too short."""
    roll = rng.random()
    if roll < 0.15:
        case = elsewhere(rng, valid_subject(rng), subject.file)
    elif roll < 0.3:
        case = changed_elsewhere(rng, subject)
    else:
        case = walk(rng, subject)
    return short_buffers(rng, case, subject.N, rng.choice(SHORT)) if rng.random() < 0.05 else case


def random_row_case(rng):
    """Any case of rows."""
    roll = rng.random()
    if roll < 0.3:
        return rng.choice(ELSEWHERE)(rng)
    if roll < 0.5:
        return rows_on(rng, with_leaning_ones(rng, rng.choice(RECORD_FAULTS)))
    if roll < 0.6:
        return rows_on(rng, header_fault_subject(rng, rng.choice(HEADER_FAULTS)))
    return rows_on(rng, valid_subject(rng))


def row_cases(rng):
    """The limits, the sweep, and then random cases without end."""
    yield from limit_walks(rng)
    yield from row_sweep(rng)
    while True:
        yield random_row_case(rng)
