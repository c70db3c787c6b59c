"""Packed arrays: elements of one, two or four bits, lowest in the lowest bits, up to a byte boundary."""

from pgen_header import Refused, up


def unpack(data, width, count):
    """The first elements of a packed array, lowest in the lowest bits."""
    per_byte = 8 // width
    mask = (1 << width) - 1
    return [data[i // per_byte] >> (i % per_byte * width) & mask for i in range(count)]


def pack(elements, width):
    """A packed array with its unused bits zero."""
    per_byte = 8 // width
    data = bytearray(up(len(elements), per_byte))
    for i, element in enumerate(elements):
        data[i // per_byte] |= element << (i % per_byte * width)
    return bytes(data)


def read_array(file, place, end, width, count):
    """A packed array: it must fit (12), its unused bits are zero (18)."""
    after = place + up(count * width, 8)
    if after > end:
        raise Refused(12, end)
    used = count * width % 8
    if used and file[after - 1] >> used:
        raise Refused(18, after - 1)
    return unpack(file[place:after], width, count), after
