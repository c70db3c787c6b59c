"""Examples of phases with bytes worked out by hand from document 02, and the laws of phases, run through the built probe: what stands here is literal,
not computed by the independent program."""

import random

from pgen_cases import FLIP, LOOKUP, PHASES, READ, ROWS, VIEW, WHOLE_FILE, WRITE_PHASED, Case
from pgen_generate import ALL_KINDS
from pgen_header import LEANING_KINDS, PHASED
from pgen_parts import FILE_A, FileParts, RecordParts, TrackParts, join_file
from pgen_phase_cases import WRITTEN_STYLES, focused_writer_case, phased_subject, phased_writer_case
from pgen_phase_damage import TRACK_FAULTS
from pgen_phase_generate import CALLS, WIDE_TYPES, random_phased_file
from program_laws import GREATEST_FILE, check_flips, check_rows, flip, run_lines

PLAIN = bytes.fromhex("6c1b02" "02000000" "05000000" "00" "e400" "5501")
FRESH_FILES = 40
FRESH_RECORDS = 60
EXCHANGED = bytes([0, 2, 1])


def file_of(N, *records):
    """A file of records given as (type, hex): types of 8 bits, lengths of one byte."""
    bodies = [bytes.fromhex(body) for _, body in records]
    offset = 20 + 2 * len(records)
    head = b"\x6c\x1b\x10" + len(records).to_bytes(4, "little") + N.to_bytes(4, "little") + b"\x44" + offset.to_bytes(8, "little")
    return head + bytes(its_type for its_type, _ in records) + bytes(map(len, bodies)) + b"".join(bodies)


def reading(file, variant, want, N=5):
    """A reading of phases, and the line it must give."""
    return Case(PHASES, variant, first=file, output=N, work=N), f"0 0 o {want} w {bytes(N).hex()} v 0"


def refused(file, number, place, N=5):
    """The same of variant 0, refused in a record."""
    return Case(PHASES, first=file, output=N, work=N), f"{number} {place} o {'a5' * N} w {bytes(N).hex()} v 0"


def written(categories, phases, kind, code, want):
    """A phased record written with room to spare, and the line it must give."""
    size = len(bytes.fromhex(want))
    return (Case(WRITE_PHASED, kind, code, bytes(map(int, categories)), b"", size + 2, third=bytes(map(int, phases))),
            f"0 0 {size} o {bytes.fromhex(want).hex()}a5a5 v 0")


def not_written(categories, phases, number, place, anchor=b"", output=9):
    """Kind 0, refused."""
    return (Case(WRITE_PHASED, 0, 0, bytes(map(int, categories)), anchor, output, third=bytes(map(int, phases))),
            f"{number} {place} 0 o {'a5' * output or '-'} v 0")


def reading_examples():
    """Readings: tracks made by plink2 (docs/INTEROP.md, facts 5 and 11), of no heterozygous call, of eight; file A and one of mode 0x02, which have none."""
    yield reading(file_of(16, (0x10, "005555aafb0112")), 0, "00000000" "0100020101020101" "00000000", 16)
    yield refused(file_of(16, (0x10, "005555aa4c00")), 18, 26, 16)
    yield reading(FILE_A, 1, "0000000000")
    yield reading(PLAIN, 1, "0000000000")
    for track in ("00", "01"):
        yield reading(file_of(5, (0x14, "00" + track)), 0, "0000000000")
    for track, number, place in (("", 12, 23), ("02", 18, 23), ("03", 18, 23), ("80", 18, 23), ("0000", 13, 24), ("0100", 13, 24)):
        yield refused(file_of(5, (0x14, "00" + track)), number, place)
    for track, phases in (("ff01" "81", "0201010101010102"), ("00" "81", "0201010101010102"), ("0101" "01", "0000000000000002"), ("0100", "0000000000000000")):
        yield reading(file_of(8, (0x10, "5555" + track)), 0, phases, 8)
    for track, number, place in (("", 12, 24), ("ff", 12, 25), ("ff03", 18, 25), ("ff0381", 18, 25), ("ff01", 12, 26), ("00", 12, 25), ("01", 12, 25),
                                 ("ff018100", 13, 27), ("0000ff", 13, 26), ("010102", 18, 26), ("010000", 13, 26)):
        yield refused(file_of(8, (0x10, "5555" + track)), number, place, 8)


def writing_examples():
    """Records written: presence bits only if a call is unphased; the refusals in document 02's order."""
    yield written("01103", "01200", 1, 1, "0106010403" "0002")
    yield written("01103", "02000", 1, 1, "0106010403" "0301")
    yield written("01103", "00000", 1, 1, "0106010403" "01")
    yield written("00300", "00000", 4, 0, "010203" "00")
    yield written("1111111", "1111111", 0, 0, "5515" "0000")
    yield written("1111111", "2222220", 0, 0, "5515" "7f3f")
    yield written("11111111", "22222220", 0, 0, "5555" "ff007f")
    yield not_written("0114", "03000", 10, 0)
    yield not_written("0114", "0300", 20, 3)
    yield not_written("0112", "0300", 22, 1, output=0)
    yield not_written("0112", "0013", 22, 3, output=0)
    yield not_written("0112", "1300", 22, 0)
    yield not_written("0112", "0120", 10, 0, output=1)
    yield not_written("0114", "0300", 10, 0, anchor=b"\0")


def leaning_examples():
    """Rows 0 and 1 of file A with tracks, each with one swapped call: read, looked up, gone through and flipped; the second leans on the first."""
    file = file_of(5, (0x10, "e400" "0001"), (0x12, "02010603" "0001"))
    yield reading(file, 0, "0002000000")
    yield reading(file, 1, "0000000002")
    yield Case(READ, 1, first=file, output=5, work=5), "0 0 o 0002020301 w 0000000000 v 0"
    yield Case(LOOKUP, 1, 4, first=file, work=5), "0 0 1 w 0000000000 v 0"
    yield Case(VIEW, 1, first=file), "0 0 6 p 020106030001 v 0"
    yield Case(ROWS, 3, first=file, output=5, work=5), "0 0 s 0 0 o 0001020300 v 0 s 0 0 o 0002020301 v 0 s 11 0 o 0002020301 v 2 w 0001020300 v 0"
    yield flip(file, 1, file_of(5, (0x10, "c602" "0000"), (0x13, "02010403" "0001")))
    yield flip(file, 2, file_of(5, (0x10, "e400" "0001"), (0x13, "02010603" "0000")))
    yield flip(file, 3, file_of(5, (0x10, "c602" "0000"), (0x12, "02010403" "0000")))
    one = (0x11, "0106010403" "0301")
    yield flip(file_of(5, one, one), 1, file_of(5, (0x11, "0519010403" "0300"), one))
    wrong = file_of(5, (0x14, "00" "00"), (0x10, "e400" "0003"), (0x12, "02010603" "0001"))
    for call in (Case(READ, 2, output=5), Case(PHASES, 2, output=5)):
        yield call._replace(first=wrong, work=5), "18 31 o a5a5a5a5a5 w 0000000000 v 1"
    yield Case(WHOLE_FILE, first=wrong, work=5), "18 31 0 0 0 0 w 0000000000 v 1"
    yield Case(ROWS, 3, first=wrong, output=5, work=5), "0 0 s 0 0 o 0000000000 v 0 s 18 31 o 0000000000 v 1 s 18 31 o 0000000000 v 1 w 0000000000 v 0"


def check_phase_examples(tally, run):
    """The examples through the probe."""
    cases, want = zip(*reading_examples(), *writing_examples(), *leaning_examples())
    tally.same("examples of phases", "\n".join(run_lines(run, cases)).encode(), "\n".join(want).encode(), len(want))


def outputs(run, cases):
    """What accepted calls leave in their outputs; of a refused one its line."""
    return [line.split()[line.split().index("o") + 1] if line.startswith("0 0 ") else line for line in run_lines(run, cases)]


def check_readings(tally, run, seed):
    """A reading gives the phases that a file was made of, and after a flip those with 1 and 2 exchanged in members alone."""
    rng = random.Random(f"phases {seed}")
    flips, reads, later, want, turned = [], [], [], [], []
    while len(flips) < FRESH_FILES:
        parts = random_phased_file(rng)
        file, N = join_file(parts)[0], parts.N
        if len(file) > GREATEST_FILE:
            continue
        members = rng.getrandbits(parts.M())
        flips.append(Case(FLIP, first=file, second=members.to_bytes((parts.M() + 7) // 8, "little"), work=N))
        for variant, record in enumerate(parts.records):
            reads.append(Case(PHASES, variant, first=file, output=N, work=N))
            later.append(len(flips) - 1)
            want.append(record.phases().hex())
            turned.append((record.phases().translate(EXCHANGED + bytes(253)) if members >> variant & 1 else record.phases()).hex())
    tally.same(f"readings of phases, seed {seed}", "\n".join(outputs(run, reads)).encode(), "\n".join(want).encode(), len(want))
    flipped = [bytes.fromhex(line.split()[3]) for line in run_lines(run, flips)]
    reads = [case._replace(first=flipped[number]) for case, number in zip(reads, later)]
    tally.same(f"readings after a flip, seed {seed}", "\n".join(outputs(run, reads)).encode(), "\n".join(turned).encode(), len(want))


def holding(case, body):
    """A file of two records: the anchor's categories in kind 0, and the record that was written."""
    anchor = case.second or bytes(len(case.first))
    packed = RecordParts(0, anchor, bytes(sum(value << 2 * k for k, value in enumerate(anchor[at:at + 4])) for at in range(0, len(anchor), 4)))
    parts = FileParts(0x10, WIDE_TYPES, len(case.first), [packed, RecordParts(case.x, None, body)], [])
    parts.types[1] |= PHASED
    return join_file(parts)[0]


def check_writing(tally, run, seed):
    """What was written is read back, categories and phases; and that, written again, gives the same bytes."""
    rng = random.Random(f"phases written {seed}")
    writes = [focused_writer_case(rng, rng.choice(ALL_KINDS), rng.choice(CALLS), rng.choice(WRITTEN_STYLES)) for _ in range(FRESH_RECORDS)]
    writes += [case for case in (phased_writer_case(rng) for _ in range(FRESH_RECORDS)) if case.first]
    writes = [case._replace(output=4 * len(case.first) + 16) for case in writes]
    lines = [line.split() for line in run_lines(run, writes)]
    tally.same(f"phased records accepted, seed {seed}", " ".join(f"{line[0]} {line[1]}" for line in lines).encode(), " ".join(["0 0"] * len(lines)).encode())
    bodies = [bytes.fromhex(line[4])[:int(line[2])] for line in lines]
    files = [holding(case, body) for case, body in zip(writes, bodies)]
    for call, part in ((READ, "first"), (PHASES, "third")):
        reads = [Case(call, 1, first=file, output=len(case.first), work=len(case.first)) for case, file in zip(writes, files)]
        want = [getattr(case, part).hex() for case in writes]
        tally.same(f"written and read back, call {call}, seed {seed}", "\n".join(outputs(run, reads)).encode(), "\n".join(want).encode(), len(want))


def stored_as_written(record):
    """The record in kind 1 has no stray bits, and presence bits are stored just if a call is unphased."""
    if record.kind == 1:
        for sample in record.list.samples:
            record.front[1 + sample // 8] &= ~(1 << sample % 8)
    if record.track:
        record.track = TrackParts(0 in record.track.phases, record.track.phases)
    return record


def check_writing_again(tally, run, seed):
    """What is read of a record that the writer could have written, written again, gives its bytes."""
    rng = random.Random(f"phases written again {seed}")
    reads, wanted, kinds, anchors = [], [], [], []
    for _ in range(FRESH_FILES // 2):
        parts = random_phased_file(rng, rng.choice([1, 5, 8, 9, 64, 100, 257]), 6)
        parts.records = [stored_as_written(record) for record in parts.records]
        file, anchor = join_file(parts)[0], b""
        for variant, record in enumerate(parts.records):
            if record.track:
                reads.append(Case(READ, variant, first=file, output=parts.N, work=parts.N))
                wanted.append(record.join())
                kinds.append((record.kind, record.front[0] if record.kind == 1 else 0))
                anchors.append(anchor if record.kind in LEANING_KINDS else b"")
            anchor = anchor if record.kind in LEANING_KINDS else record.categories
    categories = map(bytes.fromhex, outputs(run, reads))
    phases = map(bytes.fromhex, outputs(run, [case._replace(call=PHASES) for case in reads]))
    writes = [Case(WRITE_PHASED, kind, code, row, anchor, len(body), third=each)
              for (kind, code), row, anchor, body, each in zip(kinds, categories, anchors, wanted, phases)]
    tally.same(f"read and written again, seed {seed}", "\n".join(outputs(run, writes)).encode(), "\n".join(body.hex() for body in wanted).encode(), len(wanted))


def check_phase_laws(tally, run, seed):
    """All laws of phases."""
    check_readings(tally, run, seed)
    check_writing(tally, run, seed)
    check_writing_again(tally, run, seed)
    check_flips(tally, run, f"phases {seed}", random_phased_file)
    check_rows(tally, run, f"phases {seed}", phased_subject, TRACK_FAULTS)
