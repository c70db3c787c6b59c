"""The header of a PGEN file: refusals 1 to 9, and where types and records stand.

`read_header` takes the file's bytes and gives a `Header`, or raises `Refused`.
BLOCK_SIZE may be changed by a test so that small blocks can be tried.
"""

from contextlib import contextmanager
from itertools import accumulate

BLOCK_SIZE = 65536
GREATEST_M = 16777216
GREATEST_N = 65536
PLAIN_MODE = 0x02
BLOCK_MODE = 0x10
LEANING_KINDS = (2, 3)
KIND_BITS = 7  # of a type
PHASED = 16  # a type's bit 4: a phase track follows the main track


class Refused(Exception):
    """A refusal: its number, its place and its variant, which is "0 in 1 to 4, from a writer" (document 02, Ask 2)."""

    def __init__(self, number, place, variant=0):
        super().__init__(number, place, variant)
        self.number = number
        self.place = place
        self.variant = variant

    def reply(self):
        """What every reply begins with."""
        return self.number, self.place, self.variant


@contextmanager
def naming(variant):
    """A record does not know whose it is: its refusals name "the variant in whose record .. the fault lies"."""
    try:
        yield
    except Refused as refused:
        raise Refused(refused.number, refused.place, variant) from None


def refuse_lowest(number, places, M):
    """Refuse with the lowest of the places, if there is one: "M where no variant is concerned"."""
    places = list(places)
    if places:
        raise Refused(number, min(places), M)


def up(count, size):
    """The quotient rounded up."""
    return -(-count // size)


def little(data):
    """The little-endian number in these bytes."""
    return int.from_bytes(data, "little")


def length_width(form):
    """The bytes of a record's length."""
    return form % 4 + 1


def leans(its_type):
    """Whether a record of this type leans on an anchor."""
    return its_type & KIND_BITS in LEANING_KINDS


def type_allowed(its_type, variant):
    """Whether a variant may have this type."""
    leaning_first = variant % BLOCK_SIZE == 0 and leans(its_type)
    return its_type & ~PHASED <= KIND_BITS and its_type & KIND_BITS != 5 and not leaning_first


class Block:
    """Where the parts of one block of the header stand."""

    def __init__(self, first, count, form, start):
        self.first = first
        self.count = count
        self.types_start = start
        self.types_end = start + (count if form & 4 else up(count, 2))
        self.lengths_end = self.types_end + count * length_width(form)
        self.end = self.lengths_end + (up(count, 8) if form >> 6 == 3 else 0)


class Header:
    """The header of a file whose first 12 bytes are allowed."""

    def __init__(self, file):
        self.file = file
        self.mode = file[2]
        self.M = little(file[3:7])
        self.N = little(file[7:11])
        self.form = file[11]
        self.blocks = []
        if self.mode == PLAIN_MODE:
            self.end = 12 + (up(self.M, 8) if self.form >> 6 == 3 else 0)
        else:
            self.end = self.lay_out_blocks()

    def lay_out_blocks(self):
        """Place the blocks one after another behind the offsets."""
        place = 12 + 8 * up(self.M, BLOCK_SIZE)
        for first in range(0, self.M, BLOCK_SIZE):
            count = min(BLOCK_SIZE, self.M - first)
            self.blocks.append(Block(first, count, self.form, place))
            place = self.blocks[-1].end
        return place

    def narrow(self):
        """Whether a type takes 4 bits."""
        return self.form & 4 == 0

    def type_place(self, variant):
        """The byte that holds a variant's type (mode 0x10)."""
        block = self.blocks[variant // BLOCK_SIZE]
        within = variant - block.first
        return block.types_start + (within // 2 if self.narrow() else within)

    def type_shift(self, variant):
        """The lowest bit, within its byte, of a variant's type."""
        within = variant % BLOCK_SIZE
        return 4 * (within % 2) if self.narrow() else 0

    def length_place(self, variant):
        """The first byte of a variant's length (mode 0x10)."""
        block = self.blocks[variant // BLOCK_SIZE]
        return block.types_end + (variant - block.first) * length_width(self.form)

    def unused_bits_places(self):
        """Bytes of the header that have an unused bit set."""
        if self.mode == PLAIN_MODE:
            return [self.end - 1] if self.flags_unused(self.M, self.end) else []
        places = []
        for block in self.blocks:
            if self.narrow() and block.count % 2:
                if self.file[block.types_end - 1] >> 4:
                    places.append(block.types_end - 1)
            if self.flags_unused(block.count, block.end):
                places.append(block.end - 1)
        return places

    def flags_unused(self, count, end):
        """Whether flag bits that end here have an unused bit set."""
        return self.form >> 6 == 3 and count % 8 != 0 and self.file[end - 1] >> (count % 8) != 0

    def find_types(self):
        """Take the type of every variant."""
        if self.mode == PLAIN_MODE:
            self.types = bytes(self.M)
            return
        types = bytearray()
        for block in self.blocks:
            part = self.file[block.types_start:block.types_end]
            if self.narrow():
                part = bytes(half for byte in part for half in (byte & 15, byte >> 4))
            types += part[:block.count]
        self.types = bytes(types)

    def bad_types(self):
        """Bytes that hold a type that is not allowed, each with the variant of that type."""
        if self.mode == PLAIN_MODE:
            return []
        return [(self.type_place(variant), variant) for variant, its_type in enumerate(self.types)
                if not type_allowed(its_type, variant)]

    def find_records(self):
        """Take the lengths: record v stands from starts[v] to starts[v + 1]."""
        if self.mode == PLAIN_MODE:
            size = up(self.N, 4)
            self.starts = range(self.end, self.end + size * self.M + 1, size)
            return
        lengths = []
        width = length_width(self.form)
        for block in self.blocks:
            for place in range(block.types_end, block.lengths_end, width):
                lengths.append(little(self.file[place:place + width]))
        self.starts = list(accumulate(lengths, initial=self.end))

    def bad_offset_places(self):
        """Offset fields that do not say where their block's first record starts."""
        places = []
        for number, block in enumerate(self.blocks):
            field = 12 + 8 * number
            if little(self.file[field:field + 8]) != self.starts[block.first]:
                places.append(field)
        return places

    def record(self, variant):
        """Where a variant's record starts and ends."""
        return self.starts[variant], self.starts[variant + 1]

    def anchor(self, variant):
        """The nearest earlier variant of the same block that leans on nothing."""
        earlier = variant - 1
        while leans(self.types[earlier]):
            earlier -= 1
        assert earlier // BLOCK_SIZE == variant // BLOCK_SIZE
        return earlier


def refuse_first_bytes(file):
    """Refusals 1 to 5, which the first 12 bytes decide."""
    if len(file) < 12:
        raise Refused(1, len(file))
    if file[0:2] != b"\x6c\x1b":
        raise Refused(2, 0)
    mode, form = file[2], file[11]
    if mode not in (PLAIN_MODE, BLOCK_MODE):
        raise Refused(3, 2)
    if not 1 <= little(file[3:7]) <= GREATEST_M:
        raise Refused(4, 3)
    if not 1 <= little(file[7:11]) <= GREATEST_N:
        raise Refused(4, 7)
    if form & 0x30 or form & 0x0f > (0 if mode == PLAIN_MODE else 7):
        raise Refused(5, 11, little(file[3:7]))


def refuse_types(header):
    """Refusal 8 at the lowest place, of "the lower one where one byte holds two such types"."""
    bad = header.bad_types()
    if bad:
        raise Refused(8, *min(bad))


def read_header(file):
    """The accepted header of a file; refusals 1 to 9."""
    refuse_first_bytes(file)
    header = Header(file)
    if header.end > len(file):
        raise Refused(6, len(file), header.M)
    refuse_lowest(7, header.unused_bits_places(), header.M)
    header.find_types()
    refuse_types(header)
    header.find_records()
    refuse_lowest(9, header.bad_offset_places(), header.M)
    if header.starts[-1] != len(file):
        raise Refused(9, len(file), header.M)
    return header
