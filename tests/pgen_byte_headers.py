"""The header's fields of one byte with every value: alone, and with a second fault behind, so that the order shows.

All else in a file is as if the value were allowed: a form or a type with a bit that must be 0 stands in a file laid out as if the bit were 0. So a rule
that is wrong for one value changes a reply.

A fault behind takes a right file as a bytearray and its marks, and gives False where this file has no such place.
"""

from typing import NamedTuple

from pgen_cases import FLIP, HEADER, LOOKUP, READ, ROWS, VIEW, WHOLE_FILE, Case
from pgen_header_damage import put
from pgen_parts import FileParts, RecordParts, join_file

N = 5
ALL_BYTES = range(256)
# a record of each kind that is right on any anchor; kind 5 is none, and stands here for what its type's low bits say
BODIES = {kind: bytes.fromhex(body) for kind, body in {
    0: "e400", 1: "0106010403", 2: "00", 3: "00", 4: "010203", 5: "00", 6: "010203", 7: "010200"}.items()}
WHOLE = Case(WHOLE_FILE, work=6)
CALLS_ON_FILES = [
    Case(HEADER), WHOLE, Case(READ, 1, output=6, work=7), Case(LOOKUP, 1, 4, work=5), Case(VIEW, 1),
    Case(FLIP, second=b"\1", work=6), Case(ROWS, 3, output=6, work=7)]


class Sweep(NamedTuple):
    """A field in one setting, and for each value its cases: the fault alone, and with a second one behind it."""

    name: str
    alone: list
    behind: list


def file_of_kinds(kinds, mode=0x10, form=0xc0):
    """A right file of these kinds, as a bytearray, and its marks."""
    parts = FileParts(mode, form, N, [RecordParts(kind, None, BODIES[kind]) for kind in kinds], [1] * len(kinds))
    file, marks = join_file(parts)
    return bytearray(file), marks


def mode_wrong(file, marks):
    file[2] = 0x11


def M_wrong(file, marks):
    put(file, 3, 0, 4)


def N_wrong(file, marks):
    put(file, 7, 65537, 4)


def form_wrong(file, marks):
    file[11] |= 0x20


def header_cut(file, marks):
    if marks.header_end == 12:
        return False
    del file[marks.header_end - 1:]
    return True


def unused_bit(file, marks):
    if not marks.unused:
        return False
    file[marks.unused[-1][0]] |= 0x80
    return True


def last_type_wrong(file, marks):
    if not marks.types:
        return False
    file[marks.types[-1]] |= 8
    return True


def offset_wrong(file, marks):
    if not marks.offsets:
        return False
    file[marks.offsets[0]] ^= 1
    return True


def byte_behind(file, marks):
    file.append(0)


def last_record_wrong(file, marks):
    """Its last byte has unused bits set, or is a count that is cut."""
    file[-1] |= 0x80


# in document 01's order, each with its number; the last gives 12 or 18
BEHIND = [(3, mode_wrong), (4, M_wrong), (4, N_wrong), (5, form_wrong), (6, header_cut), (7, unused_bit), (8, last_type_wrong), (9, offset_wrong),
          (9, byte_behind), (12, last_record_wrong)]


def on_file(call, file):
    """A call's case on this file."""
    return call._replace(first=bytes(file))


def files_behind(number, file_of, value):
    """The file of a value with each later fault that it can have."""
    for later, fault in BEHIND:
        file, marks = file_of(value)
        if later > number and fault(file, marks) is not False:
            yield fault, file


def in_turn(things, turn, count):
    """All of these, or so many, from another one on for each turn."""
    return things if count >= len(things) else [things[(turn + k) % len(things)] for k in range(count)]


def how_many(value, right, few):
    """Of calls, or of faults behind, a value is tried with all if it is one of few that are right, with so few if of many, with one if it is wrong."""
    return 1 if value not in right else few if len(right) > 8 else 99


def file_sweep(name, number, right, file_of, values=ALL_BYTES, calls=tuple(CALLS_ON_FILES)):
    """Every value in a file, in one call after another: `file_of` gives a file with it and the file's marks; a value that is not right gets `number`."""
    alone, behind = [], []
    for value in values:
        for call in in_turn(calls, value, how_many(value, right, 2)):
            alone.append((value, on_file(call, file_of(value)[0])))
        for turn, (fault, file) in enumerate(in_turn(list(files_behind(number, file_of, value)), value, how_many(value, right, 1))):
            call = WHOLE if fault is last_record_wrong else calls[(value + turn + 3) % len(calls)]
            behind.append((value, on_file(call, file)))
    return Sweep(name, alone, behind)


def with_byte(kinds, place, mode=0x10, form=0xc0):
    """Files of these kinds with any byte at a place."""
    def file_of(value):
        file, marks = file_of_kinds(kinds, mode, form)
        file[place] = value
        return file, marks
    return file_of


def first_bytes():
    """Both magic bytes, the mode in files laid out for either, and the form in files laid out for its own bits."""
    for place, right in enumerate(b"\x6c\x1b"):
        yield file_sweep(f"magic byte {place}", 2, {right}, with_byte([0, 2, 4], place))
    yield file_sweep("mode, in a file laid out for 0x10", 3, {0x10}, with_byte([0, 2, 4], 2))
    yield file_sweep("mode, in a file laid out for 0x02", 3, {0x02}, with_byte([0, 0, 0], 2, 0x02))

    def laid_out(mode, bits, kinds):
        def file_of(form):
            file, marks = file_of_kinds(kinds, mode, form & bits)
            file[11] = form
            return file, marks
        return file_of
    allowed = {high << 6 | low for high in range(4) for low in range(8)}
    yield file_sweep("form, mode 0x10", 5, allowed, laid_out(0x10, 0xc7, [0, 2, 4]))
    yield file_sweep("form, mode 0x02", 5, {0x00, 0x40, 0x80, 0xc0}, laid_out(0x02, 0xc0, [0, 0, 0]))


KINDS_AROUND = [0, 2, 4, 3, 0]  # of the variants whose types are not swept
FIRST_KINDS, LATER_KINDS = {0, 1, 4, 6, 7}, {0, 1, 2, 3, 4, 6, 7}


def typed(types, place, byte, form):
    """A file whose records suit the low three bits of these types, with this byte of types."""
    file, marks = file_of_kinds([its_type & 7 for its_type in types], form=form)
    file[20 + place] = byte
    return file, marks


def narrow_types(place):
    """The types of two variants, which one byte holds, as any byte: variants 0 and 1, 2 and 3, or 4 with four unused bits."""
    def file_of(byte):
        types = list(KINDS_AROUND)
        types[2 * place:2 * place + 2] = [byte & 15, byte >> 4][:len(types) - 2 * place]
        return typed(types, place, byte, 0xc0)
    right = {low | high << 4 for low in (FIRST_KINDS if place == 0 else LATER_KINDS) for high in (LATER_KINDS if place < 2 else {0})}
    return right, file_of


def wide_types(place):
    """The type of one variant as any byte."""
    def file_of(byte):
        types = list(KINDS_AROUND)
        types[place] = byte
        return typed(types, place, byte, 0x04)
    return FIRST_KINDS if place == 0 else LATER_KINDS, file_of


def steps_sweep(name, file_of, values=ALL_BYTES):
    """Steps on a file with each value after a start on a right one, so that a step meets it and no header check."""
    start = bytes(file_of(0)[0])
    return Sweep(f"{name}, in steps", [(value, Case(ROWS, 5, first=bytes(file_of(value)[0]), second=start, output=6, work=7)) for value in values], [])


def types():
    """Types of 4 bits in both halves of a byte, and of 8 bits; at a block's first variant and at others."""
    for width, places, setting in ((4, (0, 1, 2), narrow_types), (8, (0, 1, 4), wide_types)):
        for place in places:
            right, file_of = setting(place)
            name = f"types of {width} bits, byte {place}"
            yield file_sweep(name, 8, right, file_of)
            if place < 2:
                yield steps_sweep(name, file_of)
