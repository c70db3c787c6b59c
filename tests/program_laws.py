"""Document 01's examples, the laws of the flip and that of the rows, run through the built probe: what stands here is literal, not computed by the
independent program."""

import random
import re

from pgen_cases import FLIP, HEADER, READ, ROWS, WRITE, Case, valid_subject
from pgen_generate import random_file
from pgen_parts import FILE_A, join_file
from pgen_record_damage import RECORD_FAULTS
from pgen_row_cases import GREATEST_STEPS, with_leaning_ones
from probe_cases import OUTPUT_FILL, input_bytes

ONE_RECORD = bytes.fromhex("6c1b1001000000050000004016000000000000000105")
FRESH_FLIPS = 60
FRESH_WALKS = 40
GREATEST_FILE = 100000


def changed(bodies, **places):
    """File A with other bodies and other single bytes."""
    file = bytearray(FILE_A[:25] + bytes.fromhex(bodies))
    for place, value in places.items():
        file[int(place[1:])] = value
    return bytes(file)


def flip(file, members, want):
    """A flip of a file with N = 5, and the line it must give."""
    return Case(FLIP, first=file, second=bytes([members]), work=5), f"0 0 f {want.hex()} w {bytes(5).hex()} v 0"


def write(categories, kind, code, want):
    """A record written with room to spare, and the line it must give."""
    size = len(bytes.fromhex(want))
    return Case(WRITE, kind, code, categories, b"", size + 2), f"0 0 {size} o {want}a5a5 v 0"


def one_listed(count):
    """So many samples, all in category 0 but sample 3, which is in category 1."""
    return bytes(1 if sample == 3 else 0 for sample in range(count))


def examples():
    """Examples (a) to (h) and (j), and the rows of file A: cases, each with its line."""
    other = "c60202010403010203"
    for variant, row in enumerate(("0001020300", "0002020301", "0000030000")):
        yield Case(READ, variant, first=FILE_A, output=5, work=5), f"0 0 o {row} w {bytes(5).hex()} v 0"
    yield flip(FILE_A, 1, changed(other, _20=0x30))
    yield flip(FILE_A, 2, changed("e40002010603010203", _20=0x30))
    yield flip(FILE_A, 3, changed(other))
    yield flip(FILE_A, 4, changed("e40002010603010203", _21=0x06))
    yield write(bytes([0, 1, 1, 0, 3]), 1, 1, "0106010403")
    yield flip(ONE_RECORD + bytes.fromhex("0106010403"), 1, ONE_RECORD + bytes.fromhex("0519010403"))
    yield write(bytes([2, 1, 1, 2, 3]), 1, 5, "0509010403")
    yield write(one_listed(256), 4, 0, "010301")
    yield write(one_listed(257), 4, 0, "01030001")
    yield Case(HEADER, first=FILE_A[:33]), "9 33 0 0 0 0 v 3"
    yield Case(ROWS, 4, first=FILE_A, output=6, work=7), (
        "0 0 s 0 0 o 0001020300a5 v 0 s 0 0 o 0002020301a5 v 0 s 0 0 o 0000030000a5 v 0 s 11 0 o 0000030000a5 v 3 w 00000300005a5a v 0")


def run_lines(run, cases):
    """The lines that the probe prints for some cases."""
    return run("probe", b"".join(map(input_bytes, cases))).decode().split("\n")[:-1]


def check_examples(tally, run):
    """The examples through the probe."""
    cases, want = zip(*examples())
    tally.same("document 01's examples", "\n".join(run_lines(run, cases)).encode(), "\n".join(want).encode(), len(want))


def flipped(run, files, sets, samples):
    """Files as the probe leaves them after a flip."""
    cases = [Case(FLIP, first=file, second=chosen, work=N) for file, chosen, N in zip(files, sets, samples)]
    return [bytes.fromhex(line.split()[3]) for line in run_lines(run, cases)]


def check_flips(tally, run, seed, make=random_file):
    """One set and then a second is the set of those in just one of the two; twice restores the file."""
    rng = random.Random(seed)
    files, first, second, samples = [], [], [], []
    while len(files) < FRESH_FLIPS:
        parts = make(rng)
        file, M = join_file(parts)[0], parts.M()
        if len(file) <= GREATEST_FILE:
            files.append(file)
            samples.append(parts.N)
            first.append(rng.getrandbits(M).to_bytes((M + 7) // 8, "little"))
            second.append(rng.getrandbits(M).to_bytes((M + 7) // 8, "little"))
    just_one = [bytes(a ^ b for a, b in zip(*pair)) for pair in zip(first, second)]
    once = flipped(run, files, first, samples)
    both = flipped(run, once, second, samples)
    tally.same(f"one set and then a second, seed {seed}", b"\n".join(both), b"\n".join(flipped(run, files, just_one, samples)), FRESH_FLIPS)
    tally.same(f"twice, seed {seed}", b"\n".join(flipped(run, once, first, samples)), b"\n".join(files), FRESH_FLIPS)


def row_line(steps):
    """The line of an accepted start and these steps (refusal, place, variant, output), but for its work area."""
    return "0 0" + "".join(f" s {number} {place} o {output.hex()} v {variant}" for number, place, variant, output in steps) + " v 0"


def without_work_area(line):
    """A line of rows but for its work area."""
    return re.sub(" w [0-9a-f-]+", "", line)


def steps_of_reads(lines, output):
    """Lines of reads as steps: a refused one leaves the output of the one before."""
    for line in lines:
        number, place, _, row, _, _, _, variant = line.split()
        output = bytes.fromhex(row) if number == "0" else output
        yield number, place, variant, output


def check_rows(tally, run, seed, valid=valid_subject, faults=tuple(RECORD_FAULTS)):
    """The v-th row of a walk is what a read of variant v gives, the variant that it names too, in valid files and in those with a fault in a record."""
    rng = random.Random(f"rows {seed}")
    walks, reads, subjects = [], [], []
    for number in range(FRESH_WALKS):
        subject = with_leaning_ones(rng, rng.choice(faults)) if number % 2 else valid(rng)
        case = Case(READ, first=subject.file, output=subject.N, work=subject.N)
        steps = min(subject.M, GREATEST_STEPS)
        subjects.append((subject.N, len(reads), len(reads) + steps))
        walks.append(case._replace(call=ROWS, x=steps))
        reads += [case._replace(x=variant) for variant in range(steps)]
    got = list(map(without_work_area, run_lines(run, walks)))
    lines = run_lines(run, reads)
    want = [row_line(steps_of_reads(lines[first:after], OUTPUT_FILL * N)) for N, first, after in subjects]
    tally.same(f"rows and reads, seed {seed}", "\n".join(got).encode(), "\n".join(want).encode(), len(reads))
