"""Ask 1's fields of one byte: types with bit 4 and each other upper bit, both parts of a track with every value; what the reading and the writer of
phases take as arguments, around and far above what is allowed.

A type stands in a file whose record suits its low three bits and bit 4, and a track's first byte has as many phase bits behind it as it asks for.
"""

from pgen_byte_cases import ABOVE_A_BYTE, CALLS_ON_RECORDS, argument_sweep, writer_sweep
from pgen_byte_headers import ALL_BYTES, CALLS_ON_FILES, KINDS_AROUND, Sweep, file_sweep, how_many, in_turn, steps_sweep
from pgen_cases import FLIP, PHASES, WRITE_PHASED, Case
from pgen_generate import ALL_KINDS, PLAIN_KINDS
from pgen_header import KIND_BITS, PHASED
from pgen_packed import pack
from pgen_parts import FILE_A, FileParts, RecordParts, TrackParts, join_file
from pgen_phase_generate import WIDE_TYPES
from pgen_record import form_record

ROW = bytes([0, 1, 1, 0, 3])
FIVE = bytes([1]) * 5
UPPER_BITS = (0, 8, 32, 64, 128)
PHASED_TYPES = [upper | PHASED | kind for upper in UPPER_BITS for kind in range(8)]
NUMBERS = [*range(6), 255, *ABOVE_A_BYTE[::10], ABOVE_A_BYTE[-1]]


def phased_record(row, its_type):
    """A record with this row, which leans on the same row if it leans; kind 5 is none, and stands here for what its type's low bits say."""
    kind = its_type & KIND_BITS
    anchor = row if kind in (2, 3) else b""
    record = RecordParts(kind, row, b"\0" if kind == 5 else form_record(row, kind, int(kind == 1), anchor, {}))
    if its_type & PHASED:
        record.track = TrackParts(True, [2, 0] if row == ROW else [1, 2, 0, 2, 1])
    return record


def typed(types):
    """A file of these types, all of its records with one row, as a bytearray, and its marks."""
    parts = FileParts(0x10, WIDE_TYPES, len(ROW), [phased_record(ROW, its_type) for its_type in types], [])
    parts.types = types
    file, marks = join_file(parts)
    return bytearray(file), marks


def phased_types():
    """The type of the first variant, or of the second, with bit 4 and one other upper bit or none."""
    calls = [*CALLS_ON_FILES, Case(PHASES, 1, output=6, work=7), Case(FLIP, second=b"\2", work=6)]
    for place, kinds in enumerate((PLAIN_KINDS, ALL_KINDS)):
        def file_of(its_type, place=place):
            types = list(KINDS_AROUND)
            types[place] = its_type
            return typed(types)
        name = f"types of 8 bits with bit 4, byte {place}"
        yield file_sweep(name, 8, {PHASED | kind for kind in kinds}, file_of, PHASED_TYPES, calls)
        yield steps_sweep(name, file_of, PHASED_TYPES)


def track_case(call, track):
    """A call on a file whose first record, five heterozygous calls, has this track; the second leans on it and has one of its own."""
    first, second = phased_record(FIVE, 0), phased_record(FIVE, PHASED | 2)
    first.tail = track
    parts = FileParts(0x10, WIDE_TYPES, len(FIVE), [first, second], [])
    parts.types[0] |= PHASED
    return call._replace(first=join_file(parts)[0])


def track_sweep(name, values, right, track_of):
    """These values in a track, in one call after another."""
    calls = [*CALLS_ON_RECORDS, Case(PHASES, 0, output=6, work=7), Case(PHASES, 1, output=5, work=5), Case(FLIP, second=b"\2", work=5)]
    return Sweep(name, [(value, track_case(call, track_of(value))) for value in values
                        for call in in_turn(calls, value, how_many(value, right, 1))], [])


def first_byte(value):
    """A track that begins so, and the phase bits that it asks for."""
    phased = bin(value & 0x3e).count("1") if value & 1 else len(FIVE)
    return bytes([value]) + pack([k % 2 for k in range(phased)], 1)


def tracks():
    """The first byte, with five presence bits or none; the byte of five phase bits."""
    yield track_sweep("first byte of a track", ALL_BYTES, {0} | {value for value in range(64) if value & 1}, first_byte)
    yield track_sweep("phase bits", [*range(48), *range(48, 256, 16), 255], set(range(32)), lambda value: bytes([0, value]))


def read_arguments():
    """The reading of phases: variant numbers and lengths lent, which N = 5 decides, on file A."""
    case, wrong = Case(PHASES, 1, output=6, work=7), {"first": FILE_A[:26] + b"\4" + FILE_A[27:]}
    yield argument_sweep("variant to read phases of", NUMBERS, case, "x", wrong)
    yield argument_sweep("length of the output for phases", range(8), case, "output", {"x": 3})
    yield argument_sweep("length of the work area for phases", range(8), case, "work", {"x": 3})


def phased_writer_case(kind, code):
    """All is allowed but the kind or the code."""
    anchor = bytes([0, 1, 2, 3, 0]) if kind % 256 in (2, 3) else b""
    return Case(WRITE_PHASED, kind, code, ROW, anchor, 11, third=bytes([0, 2, 1, 0, 0]))


def with_phase(sample):
    """Cases with any phase of this sample; sample 2 has phase 1."""
    def case_of(phase):
        phases = bytearray([0, 0, 1, 0, 0])
        phases[sample] = phase
        return phased_writer_case(0, 0)._replace(third=bytes(phases))
    return case_of


def write_arguments():
    """The writer of phases: kind, pair code, the phase of a sample in or outside of category 1, and the length of phases."""
    few = [*range(4), 127, 128, 254, 255]
    yield writer_sweep("kind of a phased record", [*range(9), *range(16, 24), *NUMBERS[6:]], set(ALL_KINDS),
                       lambda kind: phased_writer_case(kind, int(kind % 256 == 1)))
    yield writer_sweep("pair code of a phased record, kind 1", [*range(11), *NUMBERS[6:]], {1, 2, 3, 5, 6, 9}, lambda code: phased_writer_case(1, code))
    yield writer_sweep("phase of a heterozygous call", few, {0, 1, 2}, with_phase(1))
    yield writer_sweep("phase of a sample in category 0", few, {0}, with_phase(0))
    yield writer_sweep("phase of a sample in category 3", few, {0}, with_phase(4))
    yield writer_sweep("length of the phases", range(8), {5}, lambda size: phased_writer_case(0, 0)._replace(third=bytes(size)))


def phase_sweeps():
    """All of them."""
    yield from phased_types()
    yield from tracks()
    yield from read_arguments()
    yield from write_arguments()
