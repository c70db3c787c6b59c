"""The cases that document 01 names "Tested only", with the smallest files that show them; and refusals that name a variant of a second block."""

from pgen_cases import (FLIP, HEADER, LOOKUP, PHASES, READ, ROWS, VIEW, WHOLE_FILE, WRITE, Case, choose_set,
                        file_case, subject_of, with_output)
from pgen_generate import focused_file, make_file, make_records, tiny_file
from pgen_header_damage import put
from pgen_list_damage import RULES, break_rules, somewhere, step_over, step_stays
from pgen_parts import FileParts, ListParts, RecordParts, join_file
from pgen_packed import pack

BLOCK = 65536


def two_block_file(rng, form=0):
    """M of 65,538: kind 2 at 65,537, and other categories in 65,536 than in 65,535."""
    parts = tiny_file(rng, BLOCK + 2, (0, 0, 2), form=form)
    parts.records[-3].front = bytearray(pack([1] * parts.N, 2))
    parts.records[-2].front = bytearray(pack([2] * parts.N, 2))
    return parts


def block_cases(rng):
    """M of 65,536, 65,537 and 65,538; kinds 2 and 3 at 65,536 and 65,537."""
    file, _ = join_file(tiny_file(rng, BLOCK))
    yield Case(WHOLE_FILE, first=file, work=4)
    file, _ = join_file(tiny_file(rng, BLOCK + 1))
    yield Case(WHOLE_FILE, first=file, work=4)
    file, _ = join_file(tiny_file(rng, BLOCK + 1, (2,)))
    yield Case(HEADER, first=file)
    file, _ = join_file(tiny_file(rng, BLOCK + 2, (3, 2), form=4))
    yield Case(READ, x=BLOCK + 1, first=file, output=4, work=4)
    parts = two_block_file(rng)
    file, _ = join_file(parts)
    yield Case(WHOLE_FILE, first=file, work=4)
    yield Case(READ, x=BLOCK + 1, first=file, output=5, work=6)
    yield Case(LOOKUP, x=BLOCK, y=parts.N - 1, first=file, work=4)
    parts = two_block_file(rng, 0xc4)
    file, _ = join_file(parts)
    flip_set = bytearray(choose_set(rng, parts.M()))
    flip_set[BLOCK // 8] = 1
    yield Case(FLIP, first=file, second=bytes(flip_set), work=4)
    flip_set[BLOCK // 8] = 4
    yield Case(FLIP, first=file, second=bytes(flip_set), work=4)


def block_fault_cases(rng):
    """Unused bits of the second block; offsets of the first, a middle and the last block."""
    joined, marks = join_file(tiny_file(rng, BLOCK + 1, form=0xc0))
    file = bytearray(joined)
    for place, used in marks.unused:
        file[place] |= 1 << rng.randrange(used, 8)
    yield Case(HEADER, first=bytes(file))
    records = [RecordParts(4, None, b"") for _ in range(2 * BLOCK + 1)]
    for variant in (0, BLOCK - 1, BLOCK, BLOCK + 7, 2 * BLOCK):
        records[variant].front = bytearray(rng.randint(1, 9))
    joined, marks = join_file(FileParts(0x10, 0, rng.randint(1, 300), records, []))
    for wrong in ((1,), (2,), (0, 1, 2)):
        file = bytearray(joined) + bytes(rng.randrange(2))
        for number in wrong:
            put(file, marks.offsets[number], marks.starts[BLOCK * number] + 1, 8)
        yield Case(HEADER, first=bytes(file))
    yield Case(VIEW, x=2 * BLOCK, first=joined)


def plain_cases(rng):
    """Mode 0x02 with M of 65,537 and flag bits: no blocks."""
    parts = tiny_file(rng, BLOCK + 1, mode=0x02, form=0xc0)
    file, _ = join_file(parts)
    yield Case(WHOLE_FILE, first=file, work=4)
    yield Case(VIEW, x=BLOCK, first=file)


def group_cases(rng):
    """L of 63, 64 and 65, in every kind that has a list."""
    for count in (63, 64, 65):
        for kind in (1, 2, 3, 4, 6, 7):
            N = rng.choice([65, 100, 256, 257, 300])
            subject = subject_of(*focused_file(rng, kind, count, N))
            yield file_case(rng, READ, subject)._replace(x=subject.variant)
        yield file_case(rng, FLIP, subject)


def listing_file(N, samples):
    """A file with one record of kind 4."""
    entries = [(sample, 1 + k % 3) for k, sample in enumerate(samples)]
    its_list = ListParts(N, entries, [])
    return join_file(FileParts(0x10, 0, N, [RecordParts(4, None, b"", its_list)], []))[0]


def sample_cases(rng):
    """N of 65,536 and 65,537, and of 256 and 257."""
    file = listing_file(65536, [0, 16384, 65534, 65535])
    yield Case(WHOLE_FILE, first=file, work=65536)
    yield Case(READ, first=file, output=65536, work=65536)
    yield Case(READ, first=file, output=65535, work=65536)
    yield Case(LOOKUP, y=65535, first=file, work=65537)
    yield Case(LOOKUP, y=65536, first=file, work=65536)
    yield Case(FLIP, first=file, second=b"\1", work=65536)
    file = listing_file(65537, [])
    yield Case(HEADER, first=file)
    yield Case(READ, first=file, output=65537, work=65537)
    for N in (256, 257):
        yield Case(READ, first=listing_file(N, [3, N - 1]), output=N, work=N)
    for N in (65536, 65537):
        categories = bytearray(N)
        categories[N - 1] = 3
        yield Case(WRITE, 4, 0, bytes(categories), b"", 8)
    yield Case(WRITE, 2, 0, bytes(range(4)), bytes(4), 16)
    large = make_file(rng, 65536, [1, 3], [700, 130])
    yield file_case(rng, FLIP, subject_of(large, 0))


def types_at_second_block(bytes_of_types, call=Case(HEADER)):
    """A call on files with such a byte for the types of variants 65,536 and 65,537; the file is its header alone, as no record has a byte."""
    joined, marks = join_file(FileParts(0x10, 0, 1, [RecordParts(4, None, b"") for _ in range(BLOCK + 2)], []))
    file = bytearray(joined)
    for byte in bytes_of_types:
        file[marks.types[BLOCK]] = byte
        yield call._replace(first=bytes(file))


def second_block_types():
    """Every type of 4 bits at variant 65,536, and at 65,537 after type 0; both wrong, the first of them as it leans or by itself."""
    return types_at_second_block([*range(16), *(high << 4 for high in range(16)), 0x52, 0x53, 0x55, 0x88])


def second_block_phased_types():
    """Types of 8 bits with bit 4 at variants 65,536 and 65,537, likewise."""
    joined, marks = join_file(FileParts(0x10, 4, 1, [RecordParts(4, None, b"") for _ in range(BLOCK + 2)], []))
    for variant in (BLOCK, BLOCK + 1):
        for its_type in (16, 18, 19, 21, 23, 24, 48):
            file = bytearray(joined)
            file[marks.types[variant]] = its_type
            yield Case(HEADER, first=bytes(file))


def second_block_record(rng, at_fault, rule, call):
    """A call on a leaning record at variant 65,537 of a file whose records before 65,536 are empty: its anchor's list breaks a rule, or its own."""
    N = rng.choice([67, 90, 257])
    kinds = [rng.choice([1, 4, 6, 7]), rng.choice([2, 3]), 0]
    records = make_records(rng, N, kinds, [rng.randint(67, N) if at_fault == BLOCK + k else 3 for k in range(3)])
    its_list = records[at_fault - BLOCK].list
    break_rules(N, its_list, [somewhere(rng, its_list, rule)])
    parts = FileParts(0x10, 0, N, [RecordParts(4, None, b"") for _ in range(BLOCK)] + records, [])
    file, _ = join_file(parts)
    return call._replace(x=BLOCK + 1, first=file, work=N, output=N if call.call != LOOKUP else 0)


def last_record_wrong(rng, mode):
    """A whole file of 65,538 variants and three samples, of which the last has unused bits set."""
    parts = tiny_file(rng, BLOCK + 2, (0, 0) if mode == 0x10 else (), mode)
    parts.N = 3
    for record in parts.records:
        record.front[0] &= 0x3f
    parts.records[-1].front[0] |= 0x40
    return join_file(parts)[0]


def named_in_second_block(rng):
    """The fewest: an anchor at 65,536, a leaning record at 65,537, a type at 65,537 and, in mode 0x02, the record there at fault."""
    yield second_block_record(rng, BLOCK, step_stays, Case(READ))
    yield second_block_record(rng, BLOCK + 1, step_over, Case(LOOKUP))
    yield from types_at_second_block([0x54], Case(VIEW, 3))
    yield Case(WHOLE_FILE, first=last_record_wrong(rng, 0x02), work=4)


def second_block_faults(rng):
    """Each rule of a list, in an anchor and in the record itself, in one call after another; types with every other call; a sample that is not there;
    whole files of either mode with a record at fault."""
    calls = [Case(READ), Case(LOOKUP), Case(PHASES)]
    for turn, (_, rule, _) in enumerate(RULES):
        for at_fault in (BLOCK, BLOCK + 1):
            yield second_block_record(rng, at_fault, rule, calls[(turn + at_fault) % 3])
    for call in (Case(READ, 1, output=1, work=1), Case(FLIP, second=bytes(BLOCK // 8 + 1), work=1), Case(ROWS, 1, output=1, work=1)):
        yield from types_at_second_block([0x54, 0x25], call)
    file, _ = join_file(FileParts(0x10, 0, 1, [RecordParts(4, None, b"") for _ in range(BLOCK + 2)], []))
    for x in (BLOCK + 1, BLOCK + 2):
        yield Case(LOOKUP, x, 1, first=file, work=1)
    for mode in (0x10, 0x02):
        file = last_record_wrong(rng, mode)
        yield Case(WHOLE_FILE, first=file, work=4)
        yield Case(FLIP, first=file, second=bytes(BLOCK // 8 + 1), work=4)


def limit_cases(rng):
    """All of them."""
    yield from block_cases(rng)
    yield from block_fault_cases(rng)
    yield from plain_cases(rng)
    yield from group_cases(rng)
    yield from sample_cases(rng)
    for N in (0, 1, 63, 64, 65, 255, 256, 257):
        yield with_output(rng, Case(WRITE, rng.choice([0, 4]), 0, bytes(N)))
