"""Targeted faults in the records of valid files; header, lengths and offsets stay right.

Each fault takes a random.Random and gives the parts of a file and the damaged variant.
"""

from pgen_generate import ALL_KINDS, choose_N, focused_file, make_file
from pgen_list_damage import FOCUS_N, LIST_FAULTS, with_list
from pgen_record import PAIRS


def any_record(rng):
    """A file, its variant of interest and that record."""
    N = min(choose_N(rng), 3000)
    parts, variant = focused_file(rng, rng.choice(ALL_KINDS), None, N)
    return parts, variant, parts.records[variant]


def no_bytes(rng):
    parts, variant, record = any_record(rng)
    record.whole = b""
    return parts, variant


def cut_record(rng):
    parts, variant, record = any_record(rng)
    whole = record.join()
    record.whole = whole[:rng.choice([len(whole) - 1, rng.randrange(len(whole))])]
    return parts, variant


def cut_pair_bits(rng):
    """Kind 1 that ends before its list."""
    parts, variant, _ = with_list(rng, 0, [1])
    record = parts.records[variant]
    record.whole = bytes(record.front[:rng.randrange(len(record.front) + 1)])
    return parts, variant


def bytes_left(rng):
    parts, variant, record = any_record(rng)
    record.tail = bytes(rng.randrange(256) for _ in range(rng.randint(1, 3)))
    return parts, variant


def unknown_code(rng):
    parts, variant, _ = with_list(rng, 0, [1])
    codes = [code for code in range(256) if code not in PAIRS]
    parts.records[variant].front[0] = rng.choice([0, 4, 7, 8, 10, 255, rng.choice(codes)])
    return parts, variant


def unused_packed_bits(rng):
    N = rng.choice([N for N in FOCUS_N if N % 4])
    parts, variant = focused_file(rng, 0, None, N)
    parts.records[variant].front[-1] |= 1 << rng.randrange(2 * (N % 4), 8)
    return parts, variant


def unused_pair_bits(rng):
    N = rng.choice([N for N in FOCUS_N if N % 8])
    parts, variant = focused_file(rng, 1, None, N)
    parts.records[variant].front[-1] |= 1 << rng.randrange(N % 8, 8)
    return parts, variant


def changed_bytes(rng):
    """Byte changes, cuts and insertions anywhere in one record."""
    parts, variant, record = any_record(rng)
    whole = bytearray(record.join())
    for _ in range(rng.choice([1, 1, 2, 3])):
        place = rng.choice([0, rng.randrange(len(whole) + 1), rng.randrange(len(whole) + 1)])
        way = rng.randrange(4)
        if way < 2 and place < len(whole):
            whole[place] = rng.choice([whole[place] ^ 1 << rng.randrange(8), rng.randrange(256)])
        elif way == 2:
            whole[place:place] = bytes([rng.choice([0, 1, 128, 255])])
        else:
            del whole[place:place + 1]
    record.whole = bytes(whole)
    return parts, variant


def anchor_and_leaning(rng):
    """Faults in an anchor and in a record that leans on it."""
    N = rng.choice(FOCUS_N)
    leaning = [rng.choice([2, 3]) for _ in range(rng.randint(1, 4))]
    kinds = [rng.choice([0, 1, 4, 6, 7]) for _ in range(rng.randint(1, 3))] + leaning
    parts = make_file(rng, N, kinds, [None] * len(kinds))
    anchor = len(kinds) - len(leaning) - 1
    variant = rng.randrange(anchor + 1, len(kinds))
    for number in rng.choice([(anchor,), (variant,)] + [(anchor, variant)] * 4):
        record = parts.records[number]
        record.whole = rng.choice([b"", record.join()[:-1], record.join() + b"\0"])
    return parts, variant


RECORD_FAULTS = [
    no_bytes, cut_record, cut_pair_bits, bytes_left, unknown_code, unused_packed_bits, unused_pair_bits, *LIST_FAULTS,
    changed_bytes, changed_bytes, anchor_and_leaning, anchor_and_leaning, anchor_and_leaning,
]
