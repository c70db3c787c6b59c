"""The parts of records and files, kept apart so that one can be changed before all are joined."""

import pgen_header
from pgen_packed import pack
from pgen_record import varint

FILE_A = bytes.fromhex("6c1b1003000000050000004019000000000000002004020403e40002010603010203")  # document 01's small file


class ListParts:
    """A difference list in parts; `held_back` has, per entry, the values it must not hold."""

    def __init__(self, N, entries, held_back):
        self.width = 1 if N <= 256 else 2
        self.samples = [sample for sample, _ in entries]
        self.values = [value for _, value in entries]
        self.held_back = held_back
        self.count = varint(len(entries))
        self.heads = self.samples[::64]
        self.steps = []
        for k in range(0, len(entries), 64):
            group = self.samples[k:k + 64]
            self.steps.append([varint(b - a) for a, b in zip(group, group[1:])])
        self.size_bytes = [sum(map(len, group)) - 63 for group in self.steps[:-1]]
        self.unused = 0

    def join(self):
        """The bytes of the list."""
        if not self.values:
            return self.count
        heads = b"".join(head.to_bytes(self.width, "little") for head in self.heads)
        values = bytearray(pack(self.values, 2))
        values[-1] |= self.unused
        steps = b"".join(b"".join(group) for group in self.steps)
        return self.count + heads + bytes(self.size_bytes) + bytes(values) + steps


class TrackParts:
    """A phase track in parts, from whether presence bits are stored and the phase of each heterozygous call."""

    def __init__(self, stored, phases):
        self.stored = stored
        self.phases = bytes(phases)
        self.first = bytearray(pack([1, *(int(phase > 0) for phase in phases)] if stored else [0], 1))
        self.bits = bytearray(pack([phase - 1 for phase in phases if phase], 1))

    def calls(self):
        """H."""
        return len(self.phases)

    def phased_calls(self):
        """P."""
        return len(self.phases) - self.phases.count(0)

    def first_used(self):
        """The bits that are used in the first part."""
        return 1 + self.calls() if self.stored else 1

    def join(self):
        """The bytes of the track."""
        return bytes(self.first + self.bits)


class RecordParts:
    """A record in parts: what stands before the list, the list, the phase track, what stands after it."""

    def __init__(self, kind, categories, front=b"", its_list=None):
        self.kind = kind
        self.categories = categories
        self.front = bytearray(front)
        self.list = its_list
        self.track = None
        self.tail = b""
        self.whole = None

    def join(self):
        """The bytes of the record (`whole`, where it is set, stands for all parts)."""
        if self.whole is not None:
            return self.whole
        return self.main_track() + (self.track.join() if self.track else b"") + self.tail

    def main_track(self):
        """The bytes of its main track."""
        return bytes(self.front) + (self.list.join() if self.list else b"")

    def phases(self):
        """The reading of phases."""
        of_calls = iter(self.track.phases if self.track else b"")
        return bytes(next(of_calls, 0) if category == 1 else 0 for category in self.categories)

    def type(self):
        """The record's type."""
        return self.kind | (pgen_header.PHASED if self.track else 0)


class FileParts:
    """A file in parts."""

    def __init__(self, mode, form, N, records, flags):
        self.mode = mode
        self.form = form
        self.N = N
        self.records = records
        self.types = [record.type() for record in records]
        self.flags = flags

    def M(self):
        """The number of variants."""
        return len(self.records)


class Marks:
    """Where the parts of a joined file stand."""

    def __init__(self):
        self.offsets = []
        self.types = []
        self.flags = []
        self.unused = []
        self.starts = []
        self.header_end = 0


def widened(form, longest):
    """The form with lengths wide enough for the longest record."""
    width = max(form % 4, (max(1, longest.bit_length()) - 1) // 8)
    return form & ~3 | width


def join_flags(flags, place, marks):
    """A block's flag bits; marks where the array stands and its unused bits."""
    data = pack(flags, 1)
    marks.flags.append((place, place + len(data)))
    if len(flags) % 8:
        marks.unused.append((place + len(data) - 1, len(flags) % 8))
    return data


def join_block(parts, form, first, lengths, place, marks):
    """The header's part for one block."""
    after = min(first + pgen_header.BLOCK_SIZE, parts.M())
    types = parts.types[first:after]
    if form & 4:
        data = bytes(types)
    else:
        data = pack(types, 4)
        if len(types) % 2:
            marks.unused.append((place + len(data) - 1, 4))
    for within in range(len(types)):
        marks.types.append(place + (within if form & 4 else within // 2))
    data += b"".join(length.to_bytes(form % 4 + 1, "little") for length in lengths[first:after])
    if form >> 6 == 3:
        data += join_flags(parts.flags[first:after], place + len(data), marks)
    return data


def join_file(parts):
    """The file's bytes, with lengths and offsets that suit its records, and its marks."""
    marks = Marks()
    bodies = [record.join() for record in parts.records]
    lengths = [len(body) for body in bodies]
    form, size, M = parts.form, pgen_header.BLOCK_SIZE, parts.M()
    blocks = b""
    if parts.mode == 0x10:
        form = widened(form, max(lengths))
        marks.offsets = [12 + 8 * number for number in range(-(-M // size))]
        place = 12 + 8 * len(marks.offsets)
        pieces = []
        for first in range(0, M, size):
            pieces.append(join_block(parts, form, first, lengths, place, marks))
            place += len(pieces[-1])
        blocks = b"".join(pieces)
    elif form >> 6 == 3:
        blocks = join_flags(parts.flags, 12, marks)
    marks.header_end = 12 + 8 * len(marks.offsets) + len(blocks)
    start = marks.header_end
    for length in lengths:
        marks.starts.append(start)
        start += length
    head = bytes([0x6c, 0x1b, parts.mode]) + M.to_bytes(4, "little")
    head += parts.N.to_bytes(4, "little") + bytes([form])
    offsets = b"".join(marks.starts[first].to_bytes(8, "little") for first in range(0, M, size))
    if parts.mode != 0x10:
        offsets = b""
    return head + offsets + blocks + b"".join(bodies), marks
