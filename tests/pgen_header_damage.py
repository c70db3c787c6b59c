"""Targeted faults in the header of valid files, and damage anywhere.

Each fault takes a random.Random, the bytes of a valid file as a bytearray and its
marks, and changes the bytes; it gives False where this file has no such place.
"""

from pgen_generate import random_file
from pgen_parts import join_file

WRONG_NARROW_TYPES = [5, *range(8, 16)]  # of 4 bits, at any variant
HALVES = [(0, 1), (0,), (1,)]  # of two types, which one byte holds where they have 4 bits: which are wrong
OTHER_MODES = [0x00, 0x01, 0x03, 0x04, 0x05, 0x11, 0x12, 0x20, 0x21, 0x30, 0x82, 0xff]


def put(file, place, value, size):
    """Store a number."""
    file[place:place + size] = value.to_bytes(size, "little")


def short_file(rng, file, marks):
    del file[rng.randrange(12):]


def magic(rng, file, marks):
    place = rng.randrange(2)
    file[place] ^= 1 << rng.randrange(8)
    if rng.random() < 0.2:
        file[1 - place] ^= 0xff


def other_mode(rng, file, marks):
    file[2] = rng.choice(OTHER_MODES)


def exchanged_mode(rng, file, marks):
    file[2] = 0x12 - file[2]


def M_out_of_range(rng, file, marks):
    put(file, 3, rng.choice([0, 16777217, 1 << 31, (1 << 32) - 1]), 4)


def N_out_of_range(rng, file, marks):
    put(file, 7, rng.choice([0, 65537, 1 << 24, (1 << 32) - 1]), 4)


def M_off(rng, file, marks):
    M = int.from_bytes(file[3:7], "little")
    put(file, 3, rng.choice([M + 1, max(1, M - 1), M + 256, 65537, 16777216]), 4)


def N_off(rng, file, marks):
    N = int.from_bytes(file[7:11], "little")
    put(file, 7, rng.choice([N + 1, max(1, N - 1), N + 4, min(N + 256, 65536)]), 4)


def form_wrong(rng, file, marks):
    if file[2] == 0x02 and rng.random() < 0.5:
        file[11] |= rng.randint(1, 7)
    else:
        file[11] |= rng.choice([8, 8, 16, 32, 48, 0x38])


def form_off(rng, file, marks):
    file[11] ^= rng.choice([1, 2, 4, 0x40, 0x80, 0xc0])


def cut_header(rng, file, marks):
    if marks.header_end == 12:
        return False
    del file[rng.choice([12, marks.header_end - 1, rng.randrange(12, marks.header_end)]):]
    return True


def unused_header_bits(rng, file, marks):
    if not marks.unused:
        return False
    for place, used in rng.sample(marks.unused, rng.randint(1, len(marks.unused))):
        file[place] |= 1 << rng.randrange(used, 8)
    return True


def set_type(rng, file, marks, number, new):
    """Store a type of variant `number` (of the first block)."""
    if file[11] & 4:
        file[marks.types[number]] = new
    else:
        shift = 4 * (number % 65536 % 2)
        place = marks.types[number]
        file[place] = file[place] & ~(15 << shift) | (new & 15) << shift


def type_wrong(rng, file, marks):
    if not marks.types:
        return False
    for _ in range(rng.choice([1, 1, 2])):
        kind = rng.choice([0, 1, 2, 3, 4, 5, 6, 7])
        new = rng.choice([5, 8 | kind, 16 | kind, 32 | kind, 64 | kind, 128 | kind, 0xff])
        if not file[11] & 4:
            new = rng.choice([5, 8 | kind])
        last = len(marks.types) - 1
        set_type(rng, file, marks, rng.choice([0, last, rng.randint(0, last)]), new)
    return True


def wrong_halves(rng, file, marks, variant, halves):
    """Wrong types of this variant, of the next, or of both."""
    for half in halves:
        set_type(rng, file, marks, variant + half, rng.choice(WRONG_NARROW_TYPES))


def neighbours_wrong(rng, file, marks):
    if len(marks.types) < 2:
        return False
    wrong_halves(rng, file, marks, 2 * rng.randrange(len(marks.types) // 2), rng.choice(HALVES))
    return True


def leaning_first(rng, file, marks):
    if not marks.types:
        return False
    set_type(rng, file, marks, 0, rng.choice([2, 3]))
    return True


def other_kind(rng, file, marks):
    """A type that is allowed, but not the record's own."""
    if not marks.types:
        return False
    number = rng.randrange(len(marks.types))
    kinds = [0, 1, 4, 6, 7] if number == 0 else [0, 1, 2, 3, 4, 6, 7]
    set_type(rng, file, marks, number, rng.choice(kinds))
    return True


def offset_wrong(rng, file, marks):
    if not marks.offsets:
        return False
    place = rng.choice(marks.offsets)
    right = int.from_bytes(file[place:place + 8], "little")
    wrong = [0, right - 1, right + 1, right + (1 << 32), right ^ 1 << 63, rng.getrandbits(64)]
    put(file, place, rng.choice([value for value in wrong if value != right]), 8)
    return True


def cut_records(rng, file, marks):
    del file[rng.choice([marks.header_end, len(file) - 1, rng.randrange(marks.header_end, len(file))]):]


def bytes_after_records(rng, file, marks):
    file += bytes(rng.randrange(256) for _ in range(rng.choice([1, 2, 9])))


def length_off(rng, file, marks):
    """A length one too small or large; sometimes the next length makes up for it."""
    if not marks.types:
        return False
    M, width = len(marks.types), file[11] % 4 + 1
    after_types = marks.types[-1] + 1
    place = after_types + width * rng.randrange(M)
    change = rng.choice([-1, 1])
    for at, by in ((place, change), (place + width, -change))[:rng.choice([1, 2, 2])]:
        if at < after_types + width * M:
            length = int.from_bytes(file[at:at + width], "little")
            put(file, at, (length + by) % 256 ** width, width)
    return True


def changed_anywhere(rng, file, marks):
    for _ in range(rng.choice([1, 1, 2, 4])):
        if not file:
            return
        place = rng.choice([rng.randrange(len(file)), rng.randrange(min(len(file), 40))])
        way = rng.randrange(5)
        if way < 3:
            file[place] = rng.choice([file[place] ^ 1 << rng.randrange(8), rng.randrange(256)])
        elif way == 3:
            file[place:place] = bytes([rng.randrange(256)])
        else:
            del file[place:place + rng.choice([1, 1, 2, 8])]


def several_header_faults(rng, file, marks):
    """Faults of different numbers at once, so that their order decides."""
    choices = [
        magic, other_mode, M_out_of_range, N_out_of_range, form_wrong, unused_header_bits,
        type_wrong, leaning_first, offset_wrong, length_off, bytes_after_records,
    ]
    first = rng.randrange(len(choices))
    choices = choices[first:]
    for fault in rng.sample(choices, rng.randint(1, len(choices))):
        fault(rng, file, marks)


def faulted(rng, fault, make=random_file):
    """A valid file in parts, its bytes, and its bytes with this fault."""
    while True:
        parts = make(rng, N=rng.choice([1, 3, 4, 5, 9, 64, 255, 257]))
        joined, marks = join_file(parts)
        file = bytearray(joined)
        if fault(rng, file, marks) is not False:
            return parts, joined, bytes(file)


HEADER_FAULTS = [
    short_file, magic, other_mode, exchanged_mode, M_out_of_range, N_out_of_range, M_off, N_off,
    form_wrong, form_off, cut_header, unused_header_bits, type_wrong, neighbours_wrong, leaning_first, other_kind,
    offset_wrong, cut_records, bytes_after_records, length_off, changed_anywhere,
    several_header_faults, several_header_faults, several_header_faults,
]
