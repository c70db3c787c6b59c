"""Walks by rows over small files with each byte damaged and with each cut, and with the state of each of some files on each other.

A start on a right file and steps on the damaged one show what a step checks by itself; a walk over the damaged file shows what its start checks.
"""

from pgen_byte_headers import file_of_kinds
from pgen_cases import ROWS, Case
from pgen_generate import PLAIN_KINDS
from pgen_parts import FILE_A, FileParts, ListParts, RecordParts, join_file
from pgen_record import form_record

ROW_B = bytes([0, 1, 2, 3, 0, 1, 2, 3, 0])
KINDS_B = {0: (1, 1), 1: (3, 0), 2: (2, 0), 3: (0, 0), 4: (2, 0), 5: (1, 9), 6: (7, 0), 7: (3, 0)}


def steps_on(first, second=b"", samples=5, steps=4):
    """Steps on the first file, after a start on the second if there is one."""
    return Case(ROWS, steps, first=first, second=second, output=samples + 1, work=samples + 2)


def right_file(kinds, mode=0x10, form=0):
    """A right file of these kinds."""
    return bytes(file_of_kinds(kinds, mode, form)[0])


def file_B():
    """Nine samples, eight variants of most kinds in three runs of leaning ones, types of 8 bits, lengths of two bytes, flag bits."""
    records, anchor = [], b""
    for variant, (kind, code) in KINDS_B.items():
        categories = ROW_B[variant:] + ROW_B[:variant]
        records.append(RecordParts(kind, categories, form_record(categories, kind, code, anchor, {})))
        anchor = categories if kind in PLAIN_KINDS else anchor
    return join_file(FileParts(0x10, 0xc5, len(ROW_B), records, [1, 0] * 4))[0]


def damaged(file):
    """The file with each bit turned, one at a time."""
    for place in range(len(file)):
        for bit in range(8):
            yield place, file[:place] + bytes([file[place] ^ 1 << bit]) + file[place + 1:]


def on_damaged(file, samples, steps, bits):
    """Both walks over each damaged file (of `bits` bits in each byte, another one from byte to byte), and steps over each cut and over a longer file."""
    for turn, (place, other) in enumerate(damaged(file)):
        if (turn % 8 - place) % 8 < bits:
            yield steps_on(other, b"", samples, steps)
            yield steps_on(other, file, samples, steps)
    for cut in range(len(file)):
        yield steps_on(file[:cut], file, samples, steps)
    yield steps_on(file + b"\0", file, samples, steps)


def others():
    """Files that differ in mode, form, M and N, in where their records start, and in what is refused in them."""
    yield FILE_A
    yield file_B()
    yield right_file([0, 0, 0], 0x02, 0xc0)
    yield right_file([0] * 9, 0x02, 0x00)
    yield right_file([0, 2, 4], form=0x03)
    yield right_file([0, 2, 4], form=0x44)
    yield right_file([4] * 300, form=0xc0)
    yield right_file([0])
    yield join_file(FileParts(0x10, 0, 257, [RecordParts(4, None, b"", ListParts(257, [(3, 1), (256, 2)], [])), RecordParts(3, None, b"\0")], []))[0]
    yield FILE_A[:26] + b"\4" + FILE_A[27:]
    yield FILE_A[:30] + b"\4" + FILE_A[31:]


def row_damage_cases():
    """All of them."""
    yield from on_damaged(FILE_A, 5, 4, 8)
    yield from on_damaged(file_B(), len(ROW_B), 9, 1)
    files = list(others())
    for start in files:
        samples = int.from_bytes(start[7:11], "little")
        for other in [b"", *files]:
            if other != start:
                yield steps_on(other, start, samples, 5)
