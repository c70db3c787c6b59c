"""A seeded generator of valid PGEN files, in parts that damage can change."""

from itertools import accumulate

import pgen_header
from pgen_parts import FileParts, ListParts, RecordParts
from pgen_packed import pack
from pgen_record import BASES, PAIRS, exchange

SMALL_N = [1, 2, 3, 4, 5, 6, 7, 8, 9, 12, 16, 17, 20]
MIDDLE_N = [63, 64, 65, 66, 100, 127, 128, 129, 200, 255, 256, 257, 258, 300]
LARGE_N = [400, 700, 1500, 3000]
HUGE_N = [9000, 20000, 65535, 65536]
COUNTS = [0, 1, 2, 3, 4, 5, 8, 62, 63, 64, 65, 66, 127, 128, 129, 130, 191, 192, 193, 256, 257]
PLAIN_KINDS = [0, 1, 4, 6, 7]
LIST_KINDS = [1, 2, 3, 4, 6, 7]
ALL_KINDS = [0, 1, 2, 3, 4, 6, 7]
FORMS = {0x02: [0x00, 0x40, 0x80, 0xc0], 0x10: [high << 6 | low for high in range(4) for low in range(8)]}


def choose_N(rng):
    """A number of samples: mostly around the limits, rarely large."""
    roll = rng.random()
    if roll < 0.4:
        return rng.choice(SMALL_N)
    if roll < 0.88:
        return rng.choice(MIDDLE_N)
    return rng.choice(LARGE_N) if roll < 0.997 else rng.choice(HUGE_N)


def choose_M(rng, N):
    """A number of variants."""
    if N > 1000:
        return rng.randint(1, 3)
    return rng.choice([1, 2, 3, rng.randint(1, 9), rng.randint(5, 20)])


def choose_count(rng, N):
    """A list's count: around the limits of groups, of varints and of N."""
    roll = rng.random()
    if roll < 0.3:
        return rng.randint(0, min(N, 6))
    if roll < 0.75:
        return rng.choice([count for count in COUNTS if count <= N])
    return rng.choice([N, max(0, N - 1), rng.randint(0, N), rng.randint(0, N)])


def wide_samples(rng, N, count):
    """Rising sample numbers with as many wide steps as chance and N allow."""
    slack = N - count
    extra = [0] * count
    for _ in range(rng.randint(1, 70)):
        wide = rng.choice([126, 127, 127, 128, 130, 255, 16382, 16383])
        if wide <= slack:
            extra[rng.randrange(count)] += wide
            slack -= wide
    extra[0] += rng.choice([0, slack, rng.randint(0, slack)])
    return [k + total for k, total in enumerate(accumulate(extra))]


def choose_samples(rng, N, count):
    """Rising sample numbers, spread evenly, in a run, or with wide steps."""
    if count == 0:
        return []
    way = rng.randrange(4)
    if way == 0:
        start = rng.choice([0, N - count, rng.randint(0, N - count)])
        return list(range(start, start + count))
    if way < 3:
        return wide_samples(rng, N, count)
    return sorted(rng.sample(range(N), count))


def choose_categories(rng, N):
    """Categories for a record without a list."""
    weights = rng.choice([(1, 1, 1, 1), (20, 3, 1, 1), (1, 1, 20, 2), (0, 0, 0, 1), (1, 0, 1, 0)])
    return bytes(rng.choices(range(4), weights, k=N))


def make_list(rng, N, samples, held_back):
    """A list of these samples; held_back gives, per sample, the values not to hold."""
    entries = []
    kept = []
    for sample in samples:
        not_held = held_back(sample)
        entries.append((sample, rng.choice([v for v in range(4) if v not in not_held])))
        kept.append(not_held)
    return ListParts(N, entries, kept)


def put_in(under, its_list):
    """Categories with the listed values put in."""
    categories = bytearray(under)
    for sample, value in zip(its_list.samples, its_list.values):
        categories[sample] = value
    return bytes(categories)


def make_pair_record(rng, N, samples, stray):
    """A record of kind 1; stray bits of listed samples where wished."""
    code = rng.choice(sorted(PAIRS))
    pair = PAIRS[code]
    share = rng.choice([0, 0.1, 0.5, 1])
    bits = [int(rng.random() < share) for _ in range(N)]
    if not stray:
        for sample in samples:
            bits[sample] = 0
    its_list = make_list(rng, N, samples, lambda sample: pair)
    categories = put_in([pair[bit] for bit in bits], its_list)
    return RecordParts(1, categories, bytes([code]) + pack(bits, 1), its_list)


def make_record(rng, N, kind, anchor, count=None):
    """A record of this kind, with a list of this count."""
    if kind == 0:
        categories = choose_categories(rng, N)
        return RecordParts(0, categories, pack(categories, 2))
    count = choose_count(rng, N) if count is None else count
    return record_of_samples(rng, N, kind, anchor, choose_samples(rng, N, count))


def record_of_samples(rng, N, kind, anchor, samples):
    """A record of this kind, whose list has these samples."""
    if kind == 1:
        return make_pair_record(rng, N, samples, rng.random() < 0.7)
    under = bytes([BASES[kind]]) * N if kind in BASES else anchor
    its_list = make_list(rng, N, samples, lambda sample: (under[sample],))
    categories = put_in(under, its_list)
    return RecordParts(kind, exchange(categories) if kind == 3 else categories, b"", its_list)


def make_records(rng, N, kinds, counts):
    """Records of these kinds; counts has None where the count is free."""
    records, anchor = [], None
    for kind, count in zip(kinds, counts):
        record = make_record(rng, N, kind, anchor, count)
        if kind not in (2, 3):
            anchor = record.categories
        records.append(record)
    return records


def choose_kinds(rng, M):
    """Kinds that may stand at their places."""
    style = rng.choice([ALL_KINDS, ALL_KINDS, [0, 2, 3], [1, 2, 3], LIST_KINDS, PLAIN_KINDS, [1]])
    kinds = []
    for variant in range(M):
        kind = rng.choice(style)
        if variant % pgen_header.BLOCK_SIZE == 0 and kind in (2, 3):
            kind = rng.choice(PLAIN_KINDS)
        kinds.append(kind)
    return kinds


def choose_form(rng, mode):
    """An allowed form byte (lengths are widened later where they must be)."""
    low = rng.randrange(8) if mode == 0x10 else 0
    return low | rng.choice([0, 1, 2, 3, 3]) << 6


def make_file(rng, N, kinds, counts, mode=0x10):
    """A valid file of these kinds and counts."""
    records = make_records(rng, N, kinds, counts)
    flags = [rng.randrange(2) for _ in kinds]
    return FileParts(mode, choose_form(rng, mode), N, records, flags)


def random_file(rng, N=None, M=None):
    """Any valid file."""
    N = choose_N(rng) if N is None else N
    M = choose_M(rng, N) if M is None else M
    if rng.random() < 0.15:
        return make_file(rng, N, [0] * M, [None] * M, 0x02)
    return make_file(rng, N, choose_kinds(rng, M), [None] * M)


def focused_file(rng, kind, count, N):
    """A valid file and the variant in it that has this kind and count."""
    before = choose_kinds(rng, rng.randint(0, 5))
    if kind in (2, 3) and not before:
        before = [rng.choice(PLAIN_KINDS)]
    after = [rng.choice(ALL_KINDS + [2, 3]) for _ in range(rng.randint(0, 3))]
    kinds = before + [kind] + after
    counts = [None] * len(before) + [count] + [None] * len(after)
    return make_file(rng, N, kinds, counts), len(before)


def tiny_file(rng, M, ending=(), mode=0x10, form=0):
    """A valid file of many one-byte records; `ending` has its last kinds."""
    N = rng.randint(1, 4)
    kinds = [4] + [rng.choice([0, 2, 3, 4, 6, 7]) for _ in range(M - 1)]
    if mode == 0x02:
        kinds = [0] * M
    for variant in range(0, M, pgen_header.BLOCK_SIZE):
        kinds[variant] = 0
    kinds[M - len(ending):] = ending
    records = []
    for kind in kinds:
        front = pack([rng.randrange(4) for _ in range(N)], 2) if kind == 0 else b"\0"
        records.append(RecordParts(kind, None, front))
    flags = [rng.randrange(2) for _ in kinds]
    return FileParts(mode, form, N, records, flags)
