"""One record of a PGEN file: reading it (refusals 12 to 18 and 23 to 25) and forming its bytes."""

from typing import NamedTuple, Optional

from pgen_header import KIND_BITS, PHASED, Refused, up
from pgen_packed import pack, read_array
from pgen_phase import Track, form_track, heterozygous, read_track, spread

PAIRS = {1: (0, 1), 2: (0, 2), 3: (0, 3), 5: (1, 2), 6: (1, 3), 9: (2, 3)}
BASES = {4: 0, 6: 2, 7: 3}
EXCHANGED = bytes([2, 1, 0, *range(3, 256)])
GROUP = 64
RECORD_REFUSALS = [*range(12, 19), 23, 24, 25]


class Record(NamedTuple):
    """What a record holds: the pair code and bits are of kind 1 only, the phase track of types with bit 4."""

    categories: bytes
    code: int
    bits: tuple
    listed: dict
    track: Optional[Track] = None

    def phases(self):
        """The reading of phases."""
        return spread(self.categories, self.track)


def exchange(categories):
    """0 and 2 exchanged for all samples; every other byte stays."""
    return bytes(categories).translate(EXCHANGED)


def number_width(N):
    """The bytes of a sample number in a list."""
    return 1 if N <= 256 else 2


def read_varint(file, place, end):
    """A varint and the place after it."""
    value = 0
    for i in range(5):
        if place + i >= end:
            raise Refused(12, end)
        byte = file[place + i]
        value += (byte % 128) << (7 * i)
        if byte < 128:
            padded = i > 0 and byte == 0
            if padded or value >= 1 << 32:
                raise Refused(15, place)
            return value, place + i + 1
    raise Refused(15, place)


def read_list(file, place, end, N, held_back):
    """A difference list: its samples and values, and the place after it.

    held_back(sample) gives the values that the list must not hold for a sample. Of its own refusals
    "16 stays for the count, 23 is a number not rising, 24 a number not below N, 25 a size byte".
    """
    start = place
    L, heads = read_varint(file, start, end)
    if L > N:
        raise Refused(16, start)
    if L == 0:
        return {}, heads
    width, G = number_width(N), up(L, GROUP)
    sizes = heads + width * G
    value_start = sizes + G - 1
    values, place = read_array(file, value_start, end, 2, L)
    listed, before, group_start = {}, -1, place
    for k in range(L):
        if k % GROUP == 0:
            number_place = heads + k // GROUP * width
            sample = int.from_bytes(file[number_place:number_place + width], "little")
        else:
            number_place = place
            step, place = read_varint(file, place, end)
            sample = before + step
        if sample <= before:
            raise Refused(23, number_place)
        if sample >= N:
            raise Refused(24, number_place)
        if values[k] in held_back(sample):
            raise Refused(17, value_start + k // 4)
        listed[sample], before = values[k], sample
        if k % GROUP == GROUP - 1 and k // GROUP < G - 1:
            size_place = sizes + k // GROUP
            if place - group_start != file[size_place] + 63:
                raise Refused(25, size_place)
            group_start = place
    return listed, place


def patched(under, listed):
    """Categories with the listed values put in."""
    categories = bytearray(under)
    for sample, value in listed.items():
        categories[sample] = value
    return bytes(categories)


def read_pair_record(file, place, end, N):
    """Kind 1: the record and the place after it."""
    if place >= end:
        raise Refused(12, end)
    code = file[place]
    if code not in PAIRS:
        raise Refused(14, place)
    pair = PAIRS[code]
    bits, place = read_array(file, place + 1, end, 1, N)
    listed, place = read_list(file, place, end, N, lambda sample: pair)
    categories = patched((pair[bit] for bit in bits), listed)
    return Record(categories, code, tuple(bits), listed), place


def read_main_track(file, place, end, kind, N, anchor):
    """The main track of a record, and the place after it."""
    if kind == 0:
        categories, place = read_array(file, place, end, 2, N)
        return Record(bytes(categories), 0, (), {}), place
    if kind == 1:
        return read_pair_record(file, place, end, N)
    under = bytes([BASES[kind]]) * N if kind in BASES else anchor
    listed, place = read_list(file, place, end, N, lambda sample: (under[sample],))
    categories = patched(under, listed)
    return Record(exchange(categories) if kind == 3 else categories, 0, (), listed), place


def read_record(file, start, end, its_type, N, anchor):
    """The record that stands from start to end; RECORD_REFUSALS, each without its variant."""
    record, place = read_main_track(file, start, end, its_type & KIND_BITS, N, anchor)
    if its_type & PHASED:
        track, place = read_track(file, place, end, heterozygous(record.categories))
        record = record._replace(track=track)
    if place < end:
        raise Refused(13, place)
    return record


def varint(value):
    """The shortest form of a varint."""
    data = bytearray()
    while value > 127:
        data.append(value % 128 + 128)
        value //= 128
    data.append(value)
    return bytes(data)


def form_list(entries, N):
    """The bytes of a list of (sample, value) pairs in rising order."""
    if not entries:
        return varint(0)
    groups = [entries[k:k + GROUP] for k in range(0, len(entries), GROUP)]
    heads = b"".join(group[0][0].to_bytes(number_width(N), "little") for group in groups)
    bodies = []
    for group in groups:
        samples = [sample for sample, _ in group]
        steps = (later - earlier for earlier, later in zip(samples, samples[1:]))
        bodies.append(b"".join(map(varint, steps)))
    sizes = bytes(len(body) - 63 for body in bodies[:-1])
    values = pack([value for _, value in entries], 2)
    return varint(len(entries)) + heads + sizes + values + b"".join(bodies)


def form_record(categories, kind, code, anchor, listed_bits, track=None):
    """The bytes of a record; listed_bits are kind 1's bits of listed samples (else 0)."""
    return form_main_track(categories, kind, code, anchor, listed_bits) + (form_track(track) if track else b"")


def form_main_track(categories, kind, code, anchor, listed_bits):
    """The bytes of its main track."""
    N = len(categories)
    if kind == 0:
        return pack(categories, 2)
    if kind == 1:
        pair = PAIRS[code]
        bits = [0] * N
        entries = []
        for sample, category in enumerate(categories):
            if category in pair:
                bits[sample] = pair.index(category)
            else:
                entries.append((sample, category))
                bits[sample] = listed_bits.get(sample, 0)
        return bytes([code]) + pack(bits, 1) + form_list(entries, N)
    under = bytes([BASES[kind]]) * N if kind in BASES else anchor
    stored = exchange(categories) if kind == 3 else categories
    entries = [(i, value) for i, value in enumerate(stored) if value != under[i]]
    return form_list(entries, N)
