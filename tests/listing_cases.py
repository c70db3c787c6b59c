"""The listing program on fresh and damaged files, on files whose listing is long, and on input that comes in pieces.

Each check takes the program as a function from its input to what it prints.
"""

import random

from pgen_generate import ALL_KINDS, PLAIN_KINDS, make_file
from pgen_header import GREATEST_N
from pgen_parts import join_file
from pgen_phase_generate import with_tracks
from pgen_reference import GREATEST_LISTING, listing
from scale_files import MANY_VARIANTS_EVERY, chosen

FRESH_LISTINGS = 25
PIECE = 65536
# around one, two and three times 65,536 characters, and far past that
LENGTHS = [times * PIECE + by for times in (1, 2, 3) for by in (-1, 0, 1)] + [4 * PIECE, 1000003]


def sizes_for(length, type_digits=1):
    """Each M up to 3,000, and N, whose listing has so many characters where each type is printed with so many digits."""
    numbers = 0
    for M in range(1, 3001):
        numbers += len(str(M - 1))
        rest = length - numbers - (3 + type_digits) * M - len(f"{M} \n")
        for digits in range(1, 6):
            N, over = divmod(rest - digits, M)
            if over == 0 and 1 <= N <= GREATEST_N and len(str(N)) == digits:
                yield M, N


def file_for(rng, length, phased):
    """A valid file that can be listed, whose listing has so many characters; all of its records have phase tracks, or none."""
    while True:
        M, N = rng.choice(list(sizes_for(length, 2 if phased else 1)))
        kinds = [rng.choice(PLAIN_KINDS)] + [rng.choice(ALL_KINDS) for _ in range(M - 1)]
        if length > 2 * PIECE:
            kinds = [4 if kind < 2 else kind for kind in kinds]
        parts = make_file(rng, N, kinds, [rng.randint(0, min(N, 9)) for _ in kinds])
        file, _ = join_file(with_tracks(rng, parts, 1) if phased else parts)
        if len(file) <= GREATEST_LISTING:
            return file


def wrong_at_its_end(rng, file):
    """The file with a fault at its end, past what a program prints that does not check the whole file first."""
    return rng.choice([file[:-1], file + b"\0", file[:-1] + bytes([file[-1] | 0x80]), file[:-1] + b"\xff"])


def file_of_size(rng, size):
    """A valid file of so many bytes: mode 0x02 with N at most 4, so that a record has one byte."""
    M, N = size - 12, rng.randint(1, 4)
    records = bytes(rng.randrange(4 ** N) for _ in range(M))
    return b"\x6c\x1b\x02" + M.to_bytes(4, "little") + N.to_bytes(4, "little") + b"\x40" + records


def check_long_listings(tally, program, seed):
    """Long listings to their last character, and of the same files with a fault at the end; the greatest input and one byte more."""
    rng = random.Random(f"long listings {seed}")
    for turn, length in enumerate(LENGTHS):
        file = file_for(rng, length, (seed + turn) % 3 == 0)
        want = listing(file)
        assert len(want) == length, (length, len(want))
        tally.same(f"listing of {length} characters, seed {seed}", program(file), want.encode())
        file = wrong_at_its_end(rng, file)
        tally.same(f"a fault at the end of a listing of {length} characters, seed {seed}", program(file), listing(file).encode())
    for size in (GREATEST_LISTING - 1, GREATEST_LISTING, GREATEST_LISTING + 1):
        file = file_of_size(rng, size)
        tally.same(f"listing of a right file of {size} bytes, seed {seed}", program(file), listing(file).encode())


def check_listings(tally, program, seed):
    """Valid files and files with every sort of damage."""
    for number in range(FRESH_LISTINGS):
        rng = random.Random(f"listing {seed} {number}")
        name, subject = chosen(rng, MANY_VARIANTS_EVERY + 2 + number)
        tally.same(f"listing {number} of seed {seed} ({name})", program(subject.file), listing(subject.file).encode())


def check_pieces(tally, in_pieces, file):
    """Input that comes in pieces: byte by byte, or the greatest one in seven pieces."""
    large = file + bytes(GREATEST_LISTING - len(file))
    for data, size in ((file, 1), (file, 12), (large, 9999), (large + b"\0", 9999)):
        tally.same(f"listing of {len(data)} bytes in pieces of {size}", in_pieces(data, size), listing(data).encode())
