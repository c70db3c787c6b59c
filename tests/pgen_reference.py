"""The public calls and the listing program as pure functions, from documents 01 and 02 (Asks 1 and 2) alone.

Every call gives its reply (refusal, place, variant, results) and then the later content of
every buffer it was lent, the file and the flip set excepted where they never change:

    header_check         (refusal, place, variant, mode, M, N, form)
    whole_file_check     (refusal, place, variant, mode, M, N, form, work)
    read                 (refusal, place, variant, output, work)
    read_phases          (refusal, place, variant, output, work)
    lookup               (refusal, place, variant, category, work)
    view                 (refusal, place, variant, part)
    write_record         (refusal, place, variant, count, output)
    write_phased_record  (refusal, place, variant, count, output)
    flip                 (refusal, place, variant, file, work)

Going through a file row by row is in pgen_rows. Run as a program, this one lists the
file on standard input. The block size is pgen_header.BLOCK_SIZE.
"""

import sys

from pgen_header import GREATEST_N, KIND_BITS, LEANING_KINDS, Refused, leans, naming, read_header, up
from pgen_phase import HETEROZYGOUS, SWAPPED, flipped_track, written_track
from pgen_record import BASES, EXCHANGED, PAIRS, exchange, form_record, read_record

GREATEST_LISTING = 65536
ACCEPTED = (0, 0, 0)  # what the reply of an accepted call begins with
CODES = {pair: code for code, pair in PAIRS.items()}
KIND_OF_BASE = {base: kind for kind, base in BASES.items()}


def accepted_reply(header):
    """An accepted header's reply: what the header says."""
    return *ACCEPTED, header.mode, header.M, header.N, header.form


def cleared(work, N):
    """A work area after a reply other than 1 to 11 and 21."""
    return bytes(N) + work[N:]


def header_for(file, lent, variant=0, sample=0):
    """The accepted header where lent buffers hold N bytes (10) and numbers are in range (11).

    The variant is named "by 11 for a sample of a variant below M"; else M, as none is concerned.
    """
    header = read_header(file)
    if any(len(buffer) < header.N for buffer in lent):
        raise Refused(10, 0, header.M)
    if variant >= header.M:
        raise Refused(11, 0, header.M)
    if sample >= header.N:
        raise Refused(11, 0, variant)
    return header


def read_its_record(file, header, variant, anchor):
    """A variant's record, which leans on these categories if it leans."""
    start, end = header.record(variant)
    with naming(variant):
        return read_record(file, start, end, header.types[variant], header.N, anchor)


def read_all(file, header):
    """All records in variant order."""
    records, anchor = [], None
    for variant in range(header.M):
        record = read_its_record(file, header, variant, anchor)
        if not leans(header.types[variant]):
            anchor = record.categories
        records.append(record)
    return records


def read_one(file, header, variant):
    """The record of one variant, its anchor checked before it."""
    anchor = None
    if leans(header.types[variant]):
        anchor = read_one(file, header, header.anchor(variant)).categories
    return read_its_record(file, header, variant, anchor)


def header_check(file):
    """Check a file's header."""
    try:
        return accepted_reply(read_header(file))
    except Refused as refused:
        return *refused.reply(), 0, 0, 0, 0


def whole_file_check(file, work):
    """Check a whole file."""
    later = work
    try:
        header = header_for(file, [work])
        later = cleared(work, header.N)
        read_all(file, header)
    except Refused as refused:
        return *refused.reply(), 0, 0, 0, 0, later
    return accepted_reply(header) + (later,)


def fill(file, variant, output, work, reading):
    """Fill the output's first N bytes with a reading of one variant's record."""
    later = work
    try:
        header = header_for(file, [output, work], variant)
        later = cleared(work, header.N)
        record = read_one(file, header, variant)
    except Refused as refused:
        return *refused.reply(), output, later
    return *ACCEPTED, reading(record) + output[header.N:], later


def read(file, variant, output, work):
    """Read the categories of one variant."""
    return fill(file, variant, output, work, lambda record: record.categories)


def read_phases(file, variant, output, work):
    """Read the phases of one variant: 0 for all samples where it has no phase track."""
    return fill(file, variant, output, work, lambda record: record.phases())


def lookup(file, variant, sample, work):
    """Look up one sample of one variant."""
    later = work
    try:
        header = header_for(file, [work], variant, sample)
        later = cleared(work, header.N)
        record = read_one(file, header, variant)
    except Refused as refused:
        return *refused.reply(), 0, later
    return *ACCEPTED, record.categories[sample], later


def view(file, variant):
    """Hand back the bytes of one record."""
    try:
        header = header_for(file, [], variant)
    except Refused as refused:
        return *refused.reply(), b""
    start, end = header.record(variant)
    return *ACCEPTED, file[start:end]


def refuse_arguments(categories, kind, code, anchor, phases=None):
    """A writer's refusals but for its output's size; without phases, those of the writer that stores none."""
    N = len(categories)
    if not 1 <= N <= GREATEST_N:
        raise Refused(4, 0)
    if kind not in (0, 1, 2, 3, 4, 6, 7) or (code not in PAIRS if kind == 1 else code != 0):
        raise Refused(19, 0)
    if len(anchor) != (N if kind in LEANING_KINDS else 0):
        raise Refused(10, 0)
    if phases is not None and len(phases) != N:
        raise Refused(10, 0)
    for buffer in (categories, anchor):
        for index, category in enumerate(buffer):
            if category > 3:
                raise Refused(20, index)
    for index, phase in enumerate(phases or b""):
        if phase > SWAPPED or phase and categories[index] != HETEROZYGOUS:
            raise Refused(22, index)


def put_record(output, formed):
    """A writer's reply; `formed` gives the record or refuses."""
    try:
        record = formed()
        if len(output) < len(record):
            raise Refused(10, 0)
    except Refused as refused:
        return *refused.reply(), 0, output
    return *ACCEPTED, len(record), record + output[len(record):]


def write_record(categories, kind, code, anchor, output):
    """Write one main-track record."""
    def formed():
        refuse_arguments(categories, kind, code, anchor)
        return form_record(categories, kind, code, anchor, {})
    return put_record(output, formed)


def write_phased_record(categories, phases, kind, code, anchor, output):
    """Write one record with a phase track; the kind is that of its main track."""
    def formed():
        refuse_arguments(categories, kind, code, anchor, phases)
        return form_record(categories, kind, code, anchor, {}, written_track(categories, phases))
    return put_record(output, formed)


def flipped_kind_and_code(kind, code):
    """The kind and code of a flipped record that leans on nothing, and whether its bits turn."""
    if kind in BASES:
        return KIND_OF_BASE[EXCHANGED[BASES[kind]]], 0, False
    if kind == 1:
        low, high = (EXCHANGED[category] for category in PAIRS[code])
        return 1, CODES[min(low, high), max(low, high)], low > high
    return kind, 0, False


def flip_record(record, kind, member, anchor_member, anchor):
    """The later kind, categories and bytes of a record; anchor is the later anchor."""
    categories = exchange(record.categories) if member else record.categories
    code, turned = record.code, False
    if kind in LEANING_KINDS:
        kind = kind ^ 1 if member != anchor_member else kind
    elif member:
        kind, code, turned = flipped_kind_and_code(kind, code)
    listed_bits = {}
    if kind == 1:
        listed_bits = {sample: record.bits[sample] ^ turned for sample in record.listed}
    track = flipped_track(record.track) if member else record.track
    return kind, categories, form_record(categories, kind, code, anchor, listed_bits, track)


def flip_accepted(file, header, records, flip_set):
    """The later bytes of a file that the whole-file check accepts.

    Every record is formed anew from its later categories, so a record that no flip
    touches must come out as it was.
    """
    later = bytearray(file)
    anchor, anchor_member = None, False
    for variant, record in enumerate(records):
        member = bool(flip_set[variant // 8] >> variant % 8 & 1)
        old = header.types[variant] & KIND_BITS
        kind, categories, body = flip_record(record, old, member, anchor_member, anchor)
        start, end = header.record(variant)
        assert len(body) == end - start
        assert member or anchor_member or body == file[start:end]
        later[start:end] = body
        if kind != old:
            place, shift = header.type_place(variant), header.type_shift(variant)
            later[place] ^= (kind ^ old) << shift
        if kind not in LEANING_KINDS:
            anchor, anchor_member = categories, member
    return bytes(later)


def flip(file, flip_set, work):
    """Flip a set of variants in the file."""
    later = work
    try:
        header = read_header(file)
        if len(flip_set) != up(header.M, 8) or len(work) < header.N:
            raise Refused(10, 0, header.M)
        if header.M % 8 and flip_set[-1] >> header.M % 8:
            raise Refused(21, 0, header.M)
        later = cleared(work, header.N)
        records = read_all(file, header)
    except Refused as refused:
        return *refused.reply(), file, later
    return *ACCEPTED, flip_accepted(file, header, records, flip_set), later


def listing(data):
    """What the listing program prints for this input."""
    if len(data) > GREATEST_LISTING:
        return "too large\n"
    try:
        header = read_header(data)
        records = read_all(data, header)
    except Refused as refused:
        return f"refused {refused.number} {refused.place}\n"
    rows = [f"{header.M} {header.N}"]
    for variant, record in enumerate(records):
        digits = "".join(map(str, record.categories))
        rows.append(f"{variant} {header.types[variant]} {digits}")
    return "\n".join(rows) + "\n"


if __name__ == "__main__":
    sys.stdout.write(listing(sys.stdin.buffer.read(GREATEST_LISTING + 1)))
