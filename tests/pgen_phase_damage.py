"""Targeted faults in the phase tracks of valid files; header, lengths and offsets stay right.

Each fault takes a random.Random and gives the parts of a file and the damaged variant. A fault of one part is alone, or with one behind it, so that
the order shows: main track, first part, phase bits, bytes left.
"""

from pgen_generate import ALL_KINDS
from pgen_header import PHASED
from pgen_parts import TrackParts
from pgen_phase_generate import CALLS, STYLES, all_phased, all_phased_stored, focused_phased_file, random_phased_file, some_phased

STORED = [all_phased_stored, some_phased]


def with_track(rng, calls=tuple(CALLS), styles=tuple(STYLES), suits=lambda track: True):
    """A file, its variant of interest and that record, whose track suits."""
    while True:
        parts, variant = focused_phased_file(rng, rng.choice(ALL_KINDS), rng.choice(calls), rng.choice(styles))
        record = parts.records[variant]
        if suits(record.track):
            return parts, variant, record


def track_missing(rng):
    """The record ends with its main track: 12."""
    parts, variant, record = with_track(rng)
    record.whole = record.main_track()
    return parts, variant


def first_part_cut(rng):
    """It has some of its bytes: 12."""
    parts, variant, record = with_track(rng, styles=STORED, suits=lambda track: len(track.first) > 1)
    record.whole = record.main_track() + record.track.first[:rng.randrange(1, len(record.track.first))]
    return parts, variant


def bytes_behind(rng):
    """Nothing, or a few bytes."""
    return rng.choice([b"", bytes(rng.randrange(256) for _ in range(rng.randint(1, 3)))])


def first_part_unused_bits(rng):
    """An unused bit behind the presence bits: 18, whatever is missing or left behind it."""
    parts, variant, record = with_track(rng, styles=STORED, suits=lambda track: track.first_used() % 8)
    record.track.first[-1] |= 1 << rng.randrange(record.track.first_used() % 8, 8)
    record.track.bits = rng.choice([record.track.bits, record.track.bits[:-1]])
    record.tail = bytes_behind(rng)
    return parts, variant


def rest_of_the_byte(rng):
    """Without presence bits, a bit of the seven behind the first: 18, as source document 001's phase bits there would be."""
    parts, variant, record = with_track(rng, styles=[all_phased])
    record.track.first[0] |= rng.choice([1 << rng.randrange(1, 8), rng.randrange(2, 256, 2)])
    record.track.bits = rng.choice([record.track.bits, record.track.bits[:-1]])
    record.tail = bytes_behind(rng)
    return parts, variant


def phase_bits_missing(rng):
    """The record ends with the track's first part: 12."""
    parts, variant, record = with_track(rng, suits=lambda track: track.phased_calls())
    record.whole = record.main_track() + record.track.first
    return parts, variant


def phase_bits_cut(rng):
    """They have some of their bytes: 12."""
    parts, variant, record = with_track(rng, suits=lambda track: track.phased_calls() > 8)
    record.track.bits = record.track.bits[:rng.randrange(1, len(record.track.bits))]
    return parts, variant


def phase_unused_bits(rng):
    """An unused bit behind the phase bits: 18, whatever is left behind it."""
    parts, variant, record = with_track(rng, suits=lambda track: track.phased_calls() % 8)
    record.track.bits[-1] |= 1 << rng.randrange(record.track.phased_calls() % 8, 8)
    record.tail = bytes_behind(rng)
    return parts, variant


def bytes_left(rng):
    """Bytes behind the track: 13."""
    parts, variant, record = with_track(rng)
    record.tail = rng.choice([b"\0", bytes(rng.randrange(256) for _ in range(rng.randint(1, 3)))])
    return parts, variant


def bytes_for_no_phase_bits(rng):
    """No call is phased, and yet a byte stands where phase bits would: 13."""
    parts, variant, record = with_track(rng, suits=lambda track: not track.phased_calls())
    record.tail = b"\0"
    return parts, variant


def presence_bit_off(rng):
    """One call more or less is phased than there are phase bits: right, 12, 13 or 18."""
    parts, variant, record = with_track(rng, suits=lambda track: track.stored and track.calls())
    bit = rng.randint(1, record.track.calls())
    record.track.first[bit // 8] ^= 1 << bit % 8
    return parts, variant


def first_bit_off(rng):
    """Presence bits are told of and not there, or there and not told of."""
    parts, variant, record = with_track(rng)
    record.track.first[0] ^= 1
    return parts, variant


def track_of_other_calls(rng):
    """A track for one heterozygous call more or less than the record has, or for as many as its anchor."""
    parts, variant, record = with_track(rng, calls=CALLS[1:])
    H = record.track.calls()
    others = [other for other in (H - 1, H + 1, bytes(parts.records[0].categories).count(1)) if other != H]
    record.track = TrackParts(*rng.choice(STYLES)(rng, rng.choice(others)))
    return parts, variant


def bit_without_track(rng):
    """A type has bit 4, its record no track."""
    parts, variant, record = with_track(rng)
    record.track = None
    return parts, variant


def track_without_bit(rng):
    """A record has a track, its type no bit 4: 13."""
    parts, variant, _ = with_track(rng)
    parts.types[variant] &= ~PHASED
    return parts, variant


def main_track_too(rng):
    """Faults in the main track and in the phase track: the first decides, and H is then not asked for."""
    parts, variant, record = with_track(rng)
    main, track = record.main_track(), record.track.join()
    track = rng.choice([track[:-1], track + b"\0", bytes([track[0] ^ rng.choice([1, 2, 128])]) + track[1:]])
    main = rng.choice([main[:-1], main[:-1] + bytes([main[-1] ^ 1 << rng.randrange(8)]), bytes([main[0] ^ 1 << rng.randrange(8)]) + main[1:]])
    record.whole = main + track
    return parts, variant


def anchor_too(rng):
    """Faults in the tracks of an anchor and of a record that leans on it: the anchor's decides."""
    while True:
        parts, variant, record = with_track(rng)
        anchor = parts.records[0]
        if record.kind in (2, 3) and anchor.track:
            break
    anchor.whole = rng.choice([anchor.join()[:-1], anchor.join() + b"\0", anchor.main_track()])
    if rng.random() < 0.7:
        record.whole = rng.choice([record.join()[:-1], record.join() + b"\0"])
    return parts, variant


def changed_track(rng):
    """Byte changes, cuts and insertions anywhere in a track."""
    parts, variant, record = with_track(rng)
    track = bytearray(record.track.join())
    for _ in range(rng.choice([1, 1, 2])):
        place, way = rng.randrange(len(track) + 1), rng.randrange(4)
        if way < 2 and place < len(track):
            track[place] ^= 1 << rng.randrange(8)
        elif way == 2:
            track[place:place] = bytes([rng.choice([0, 1, 128, 255])])
        else:
            del track[place:place + 1]
    record.whole = record.main_track() + bytes(track)
    return parts, variant


def changed_large_track(rng):
    """A bit turned, or a byte cut or left, in the last bytes of a record of a larger file."""
    while True:
        parts = random_phased_file(rng)
        variants = [v for v, record in enumerate(parts.records) if record.track]
        if variants:
            break
    variant = rng.choice(variants)
    record = parts.records[variant]
    whole, behind = record.join(), len(record.main_track())
    place = rng.randrange(behind, len(whole))
    turned = whole[:place] + bytes([whole[place] ^ 1 << rng.randrange(8)]) + whole[place + 1:]
    record.whole = rng.choice([turned, turned, whole[:place], whole + b"\0"])
    return parts, variant


def upper_bit(rng, bits=(8, 32, 64, 128)):
    """A type with bit 4 and another upper bit: 8. It is a header's fault, in a file whose record is as if that bit were clear."""
    parts, variant, _ = with_track(rng)
    parts.types[variant] |= rng.choice(bits)
    return parts, variant


TRACK_FAULTS = [
    track_missing, first_part_cut, first_part_unused_bits, rest_of_the_byte, phase_bits_missing, phase_bits_cut, phase_unused_bits, bytes_left,
    bytes_for_no_phase_bits, presence_bit_off, first_bit_off, track_of_other_calls, bit_without_track, track_without_bit, main_track_too, anchor_too,
    changed_track, changed_large_track,
]
