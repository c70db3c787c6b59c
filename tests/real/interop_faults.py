"""Files that document 01 refuses, each with what plink2 does with it (docs/INTEROP.md, fact 7)."""

from interop_page import CRASHED, REFUSES, file_of, listed

N = 100
ENTRIES = [(3, 1), (10, 2), (40, 3)]
PLAIN = bytes(25)
NO_LIST = b"\0"
LONG_N = 600
LONG = [(7 * k, 1) for k in range(70)]
AS_EXPORTED, OTHER = "as exported", "other than exported"


def four(**changes):
    """A record of kind 4 whose list has parts changed."""
    return 4, b"", listed(N, ENTRIES, **changes)


def steps(second):
    """The steps of the list with another second step."""
    return [[b"\x07", second]]


def pair(code, last=b"\x05", its_list=None):
    """A record of kind 1."""
    return 1, bytes([code]) + b"\x55" * 12 + last + (b"" if its_list else NO_LIST), its_list


def long_list(size):
    """A record of kind 4 with two groups and this size byte."""
    return 4, b"", listed(LONG_N, LONG, size_bytes=[size])


def set_bits(file, place, bits):
    """The file with bits set."""
    later = bytearray(file)
    later[place] |= bits
    return bytes(later)


def between(file):
    """The file with a byte between header and records, and the offset moved past it."""
    start = int.from_bytes(file[12:20], "little")
    return file[:12] + (start + 1).to_bytes(8, "little") + file[20:start] + b"\xee" + file[start:]


def shifted(file):
    """The file with its block offset one too large."""
    return file[:12] + bytes([file[12] + 1]) + file[13:]


HELD = [(3, 0), (10, 2), (40, 3)]
THREE = file_of(N, four(), four(), four())
THREE_FLAGGED = file_of(N, four(), four(), four(), form=0xc0)
# what is wrong; the file; our refusal and place; plink2 --validate; --export; --geno-counts
FAULTS = [
    ("unknown pair code 4", file_of(N, pair(4)), "14 22", REFUSES, "reads", OTHER),
    ("unknown pair code 7", file_of(N, pair(7)), "14 22", REFUSES, "reads", OTHER),
    ("unknown pair code 15", file_of(N, pair(15)), "14 22", REFUSES, "reads", OTHER),
    ("kind 5, with bytes", file_of(N, (5, PLAIN, None)), "8 20", REFUSES, "reads", AS_EXPORTED),
    ("kind 5, no bytes", file_of(N, (5, b"", None)), "8 20", "passes", "reads", AS_EXPORTED),
    ("a step of 0", file_of(N, four(steps=steps(b"\0"))), "23 26", REFUSES, "reads", OTHER),
    ("a step past N", file_of(N, four(steps=steps(b"\x5f"))), "24 26", REFUSES, REFUSES, "counts"),
    ("a size byte one too large", file_of(LONG_N, long_list(1)), "25 27", REFUSES, "reads", REFUSES),
    ("a byte left in a record with a list", file_of(N, (4, b"", listed(N, ENTRIES)), (4, b"\0\0", None)), "13 29", REFUSES, "reads", AS_EXPORTED),
    ("a byte left in kind 0", file_of(N, (0, PLAIN + b"\7", None)), "13 47", REFUSES, "reads", AS_EXPORTED),
    ("a byte after the last record", file_of(N, four()) + b"\0", "9 28", REFUSES, "reads", AS_EXPORTED),
    ("unused bits in kind 0", file_of(98, (0, bytes(24) + b"\xf0", None)), "18 46", REFUSES, "reads", AS_EXPORTED),
    ("unused bits in a list's values", file_of(N, four(unused=0xc0)), "18 24", REFUSES, "reads", AS_EXPORTED),
    ("unused bits in kind 1, N = 100", file_of(N, pair(1, b"\xf5")), "18 35", REFUSES, "reads", OTHER),
    ("unused bits in kind 1, N = 90", file_of(90, (1, b"\1" + b"\x55" * 11 + b"\xfd" + NO_LIST, None)), "18 34", "passes", "reads", OTHER),
    ("a value equal to the base, kind 4", file_of(N, (4, b"", listed(N, HELD))), "17 24", "passes", "reads", OTHER),
    ("a value equal to the anchor's, kind 2", file_of(N, (0, PLAIN, None), (2, b"", listed(N, HELD))), "17 50", "passes", "reads", AS_EXPORTED),
    ("a value of the pair, kind 1", file_of(N, pair(1, its_list=listed(N, HELD))), "17 38", REFUSES, "reads", OTHER),
    ("a padded count", file_of(N, four(count=b"\x83\0")), "15 22", "passes", "reads", AS_EXPORTED),
    ("a padded step", file_of(N, four(steps=steps(b"\x9e\0"))), "15 26", "passes", "reads", AS_EXPORTED),
    ("a byte between header and records", between(file_of(N, four())), "9 12", "passes", "reads", AS_EXPORTED),
    ("a block offset one too large", shifted(THREE), "9 12", REFUSES, REFUSES, REFUSES),
    ("the file cut by one byte", THREE[:-1], f"9 {len(THREE) - 1}", REFUSES, REFUSES, REFUSES),
    ("an unused type set", set_bits(THREE, 21, 0x70), "7 21", REFUSES, "reads", AS_EXPORTED),
    ("unused flag bits set", set_bits(THREE_FLAGGED, 25, 0xf8), "7 25", REFUSES, "reads", AS_EXPORTED),
    ("a record of no bytes", file_of(N, (4, b"", None)), "12 22", REFUSES, REFUSES, REFUSES),
    ("a first record of kind 2", file_of(N, (2, b"", listed(N, ENTRIES))), "8 20", REFUSES, CRASHED, CRASHED),
]
