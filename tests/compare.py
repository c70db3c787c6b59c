"""Compares the built programs with the independent program.

    python3 compare.py                 the committed cases, the real files, the listing, input that ends badly, document 01's examples, examples of phases
                                       and of variants, fresh cases from new seeds for a minute
    python3 compare.py --seed S        the same with the fresh cases of seed S alone, to run a failure again
    python3 compare.py --minutes N     fresh cases for about N minutes, seed after seed
    python3 compare.py --write         compares nothing: writes the committed cases anew

Prints the seeds it used (a failure names its own), and as its last line 'N passed, M failed'.
"""

import argparse
import contextlib
import random
import subprocess
import sys
import time
from itertools import chain
from pathlib import Path

import pgen_reference as reference
from listing_cases import check_listings, check_long_listings, check_pieces
from pgen_byte_cases import byte_cases, table
from pgen_cases import HEADER, PHASES, READ, ROWS, Case
from pgen_limit_cases import limit_cases, second_block_faults, second_block_phased_types, second_block_types
from pgen_parts import FILE_A
from pgen_phase_bytes import phase_sweeps
from pgen_phase_cases import phase_limits
from pgen_row_cases import GREATEST_STEPS, limit_walks
from pgen_row_damage import row_damage_cases
from pgen_step_cases import step_cases
from phase_laws import check_phase_examples, check_phase_laws
from probe_cases import BAD_ENDS, all_cases, cases_of_phases, cases_of_variants, fresh_cases, input_bytes, line_of, reply_to
from program_laws import check_examples, check_flips, check_rows, row_line, without_work_area
from variant_laws import check_variant_examples, check_variant_laws

HERE = Path(__file__).resolve().parent
ROOT = HERE.parent
COMMITTED = {"seed": 1, "count": 2500, "rows": 250}
COMMITTED_PHASES = {"seed": 1, "count": 584}
COMMITTED_VARIANTS = {"seed": 1}
FRESH_CASES = 2000
PAUSE = 0.005  # seconds between two pieces of an input


def run(name, data, check=True):
    """What a built program writes for an input; it must end well unless that is not to be checked."""
    done = subprocess.run([str(ROOT / "tools" / "run"), name], input=data, stdout=subprocess.PIPE, check=check)
    return done.stdout


def joined(cases):
    """Cases as the probe's input and the lines it must print."""
    data, lines = bytearray(), []
    for case in cases:
        data += input_bytes(case)
        lines.append(line_of(*reply_to(case)))
    return bytes(data), "".join(line + "\n" for line in lines).encode()


def first_difference(got, want):
    """The first line in which two texts differ, in words."""
    for number, (a, b) in enumerate(zip(got.split(b"\n"), want.split(b"\n"))):
        if a != b:
            return f"line {number}: got {a[:200]!r}, want {b[:200]!r}"
    return f"lengths differ: got {len(got)}, want {len(want)} bytes"


class Tally:
    """What passed and what failed."""

    def __init__(self):
        self.passed = self.failed = 0

    def same(self, what, got, want, count=1):
        """Counts a comparison of so many cases."""
        if got == want:
            self.passed += count
        else:
            self.failed += 1
            print(f"FAILED: {what}: {first_difference(got, want)}")


def made():
    """The committed cases, with their lines, and the table of what every value gets: under each file's name what must stand in it."""
    of_phases = chain(cases_of_phases(**COMMITTED_PHASES), byte_cases(phase_sweeps))
    data, want = joined(chain(all_cases(**COMMITTED), byte_cases(), row_damage_cases(), of_phases, cases_of_variants(**COMMITTED_VARIANTS)))
    every_value = table() + table(phase_sweeps)
    return {"crates/probe/stdin": data, "crates/probe/stdout": want, "tests/every_value.txt": every_value.encode()}


def committed(tally):
    """The committed cases are what the generator makes (the gate itself runs them)."""
    for name, want in made().items():
        tally.same(name, (ROOT / name).read_bytes(), want)


def real_readings(tally, path, call, rows):
    """Each variant of a file made by plink2, read alone by a call, is its row."""
    file = path.read_bytes()
    samples = int.from_bytes(file[7:11], "little")
    data = b"".join(input_bytes(Case(call, v, 0, file, b"", samples, samples)) for v in range(len(rows)))
    want = "".join(f"0 0 o {bytes(map(int, row)).hex()} w {bytes(samples).hex()} v 0\n" for row in rows).encode()
    tally.same(f"call {call} on real/{path.name}", run("probe", data), want, len(rows))


def real_file(tally, path):
    """A file made by plink2: its categories, each alone and in a walk, are those that plink2 exported; and its listing."""
    file = path.read_bytes()
    samples = int.from_bytes(file[7:11], "little")
    rows = path.with_suffix(".categories").read_text().split()
    real_readings(tally, path, READ, rows)
    walked = [bytes(map(int, row)) for row in rows[:GREATEST_STEPS]]
    line = run("probe", input_bytes(Case(ROWS, len(walked), 0, file, b"", samples, samples))).decode()
    want = row_line((0, 0, 0, row) for row in walked) + "\n"
    tally.same(f"rows of real/{path.name}", without_work_area(line).encode(), want.encode(), len(walked))
    tally.same(f"listing of real/{path.name}", listed(file), reference.listing(file).encode())


def real_phases(tally, path):
    """Its phases are those that plink2 exported; none where it exported none; or where document 02 reads others those, worked out by hand."""
    told = [path.with_suffix(ending) for ending in (".phases_read", ".phases") if path.with_suffix(ending).exists()]
    if told:
        rows = told[0].read_text().split()
    else:
        rows = ["0" * len(row) for row in path.with_suffix(".categories").read_text().split()]
    real_readings(tally, path, PHASES, rows)


def real_refusal(tally, path):
    """A file made by plink2 that documents 01 and 02 refuse, with the number and place worked out by hand."""
    refusal, file = path.with_suffix(".refused").read_text().strip(), path.read_bytes()
    for what in (f"refused {refusal}\n", reference.listing(file)):
        tally.same(f"listing of real/{path.name}", listed(file), what.encode())


def real_files(tally):
    """All files made by plink2."""
    for path in sorted((HERE / "real").glob("*.pgen")):
        for check in (real_refusal,) if path.with_suffix(".refused").exists() else (real_file, real_phases):
            check(tally, path)


def listed(file):
    """What the listing program prints for this input."""
    return run("pgenlist", file)


def listed_in_pieces(data, size):
    """The same for input that comes in pieces; the program may end before it has been given all."""
    with subprocess.Popen([str(ROOT / "tools" / "run"), "pgenlist"], stdin=subprocess.PIPE, stdout=subprocess.PIPE, bufsize=0) as program:
        with contextlib.suppress(BrokenPipeError):
            for at in range(0, len(data), size):
                program.stdin.write(data[at:at + size])
                time.sleep(PAUSE)
        program.stdin.close()
        return program.stdout.read()


def listings(tally):
    """The listing of file A, cut at every length, and of inputs of and above the limit."""
    file = (ROOT / "examples" / "a.pgen").read_bytes()
    inputs = [file[:n] for n in range(len(file) + 1)] + [bytes(65536), bytes(65537)]
    for data in inputs:
        tally.same(f"listing of {len(data)} bytes", listed(data), reference.listing(data).encode())
    check_pieces(tally, listed_in_pieces, file)


def bad_ends(tally):
    """After a head that is not allowed the run ends: `bad case` is its last line, and a case behind it gets none."""
    case = Case(HEADER, first=FILE_A)
    good, line = input_bytes(case), line_of(*reply_to(case)) + "\n"
    for name, head in BAD_ENDS.items():
        behind, last = (good, "bad case\n") if head else (b"", "")
        if name.startswith("cut"):
            behind = b""
        tally.same(f"a bad end: {name}", run("probe", good + head + behind, False), (line + last).encode())


def fresh_limits(tally, seed):
    """Document 01's "Tested only" cases, the limits of rows, variants of a second block that are named, and long listings, with other files for each seed:
    they are large, so a run makes them once."""
    rng = random.Random(seed)
    cases = list(chain(limit_cases(rng), limit_walks(rng), second_block_types(), second_block_phased_types(), phase_limits(rng), second_block_faults(rng)))
    data, want = joined(cases)
    tally.same(f"tested only, seed {seed}", run("probe", data), want, len(cases))
    check_long_listings(tally, listed, seed)


def fresh_steps(tally, seed):
    """Lists with steps of chosen byte sizes, with other files for each seed: many have some thousand samples, so a run makes them once too."""
    cases = list(step_cases(random.Random(f"steps {seed}")))
    data, want = joined(cases)
    tally.same(f"steps of lists, seed {seed}", run("probe", data), want, len(cases))


def fresh(tally, seed):
    """Fresh cases."""
    data, want = joined(fresh_cases(seed, FRESH_CASES))
    tally.same(f"fresh cases of seed {seed}", run("probe", data), want, FRESH_CASES)
    check_flips(tally, run, seed)
    check_rows(tally, run, seed)
    check_phase_laws(tally, run, seed)
    check_variant_laws(tally, run, seed)
    check_listings(tally, listed, seed)


def write_committed():
    """Writes the cases that the gate runs."""
    for name, data in made().items():
        (ROOT / name).write_bytes(data)


def main():
    """Everything."""
    parser = argparse.ArgumentParser()
    parser.add_argument("--seed", type=int)
    parser.add_argument("--minutes", type=float, default=1)
    parser.add_argument("--write", action="store_true", help="write the committed cases anew")
    words = parser.parse_args()
    if words.write:
        write_committed()
        return 0
    tally = Tally()
    committed(tally)
    real_files(tally)
    listings(tally)
    bad_ends(tally)
    check_examples(tally, run)
    check_phase_examples(tally, run)
    check_variant_examples(tally, run, listed)
    end = time.monotonic() + 60 * words.minutes
    first = seed = time.time_ns() % 10**9 if words.seed is None else words.seed
    print(f"fresh cases from seed {first} on", flush=True)
    fresh_limits(tally, first)
    fresh_steps(tally, first)
    while seed == first or (words.seed is None and time.monotonic() < end):
        fresh(tally, seed)
        seed += 1
    print(f"fresh cases of {seed - first} seeds, {first} to {seed - 1}")
    print(f"{tally.passed} passed, {tally.failed} failed")
    return 1 if tally.failed else 0


if __name__ == "__main__":
    sys.exit(main())
