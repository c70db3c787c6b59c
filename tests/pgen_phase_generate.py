"""A seeded generator of valid files with phase tracks, in parts that damage can change.

Such a file has types of 8 bits, as bit 4 is in no type of 4 bits.
"""

from pgen_generate import PLAIN_KINDS, random_file
from pgen_header import LEANING_KINDS
from pgen_parts import FileParts, RecordParts, TrackParts
from pgen_record import PAIRS, exchange, form_record

WIDE_TYPES = 4  # the form's bit for types of 8 bits
CALLS = [0, 1, 2, 5, 6, 7, 8, 9, 14, 15, 16, 17]  # H around the ends of the bytes of either part
FOCUS_CALLS = [0, 1, 6, 7, 8, 9]
ROOM = [0, 1, 3, 9]  # samples beside the heterozygous ones


def all_unswapped(rng, H):
    return False, [1] * H


def all_phased(rng, H):
    return False, [rng.choice([1, 2]) for _ in range(H)]


def all_phased_stored(rng, H):
    """Presence bits are stored though all are set, which no writer of ours does."""
    return True, [rng.choice([1, 2]) for _ in range(H)]


def none_phased(rng, H):
    return True, [0] * H


def some_phased(rng, H):
    return True, [rng.choice([0, 1, 2]) for _ in range(H)]


STYLES = [all_phased, all_phased_stored, none_phased, some_phased]


def choose_track(rng, categories):
    """Any track for these categories."""
    return TrackParts(*rng.choice(STYLES + [some_phased, all_unswapped])(rng, bytes(categories).count(1)))


def with_tracks(rng, parts, share=0.7):
    """The file, of mode 0x10, with types of 8 bits and tracks at some of its records."""
    parts.form |= WIDE_TYPES
    for record in parts.records:
        if rng.random() < share:
            record.track = choose_track(rng, record.categories)
    parts.types = [record.type() for record in parts.records]
    return parts


def random_phased_file(rng, N=None, M=None):
    """Any valid file with tracks."""
    while True:
        parts = random_file(rng, N, M)
        if parts.mode == 0x10:
            return with_tracks(rng, parts, rng.choice([0.3, 0.7, 1]))


def row_of(rng, N, H):
    """Categories of which exactly H are heterozygous; the others are mostly of one value."""
    base = rng.choice([0, 0, 2, 3])
    row = [base if rng.random() < 0.8 else rng.choice([0, 2, 3]) for _ in range(N)]
    for sample in rng.sample(range(N), H):
        row[sample] = 1
    return bytes(row)


def leaning_near(rng, kind, anchor):
    """Categories that can lean on an anchor in this kind: some samples differ, so that H may too."""
    row = bytearray(exchange(anchor) if kind == 3 else anchor)
    for sample in rng.sample(range(len(row)), rng.randint(0, min(4, len(row)))):
        row[sample] = rng.randrange(4)
    return bytes(row)


def record_of(rng, categories, kind, anchor=b""):
    """A record with these categories, in this kind."""
    code = rng.choice(sorted(PAIRS)) if kind == 1 else 0
    return RecordParts(kind, categories, form_record(categories, kind, code, anchor if kind in LEANING_KINDS else b"", {}))


def focused_phased_file(rng, kind, H, style):
    """A valid file and the variant in it that has this kind, H and a track of this style; records around it, some of which lean on it or on its
    anchor, may have tracks too."""
    N = max(1, H + rng.choice(ROOM))
    categories = row_of(rng, N, H)
    anchor = leaning_near(rng, kind, categories)
    records = [record_of(rng, anchor, rng.choice(PLAIN_KINDS)), record_of(rng, categories, kind, anchor)]
    anchor = anchor if kind in LEANING_KINDS else categories
    for _ in range(rng.randrange(3)):
        leaning = rng.choice(LEANING_KINDS)
        records.append(record_of(rng, leaning_near(rng, leaning, anchor), leaning, anchor))
    parts = with_tracks(rng, FileParts(0x10, rng.randrange(4) << 6, N, records, [rng.randrange(2) for _ in records]), 0.5)
    records[1].track = TrackParts(*style(rng, H))
    parts.types[1] = records[1].type()
    return parts, 1
