"""Turns cases into the probe's input bytes and the lines it must print.

    python3 probe_cases.py --seed S --cases N [--rows R] [--phases P] --stdin FILE --stdout FILE [--end WAY]

The cases named "Tested only" always come first, then every fault with every call, then
random cases up to N; then R cases of rows, P cases of phases, and those of Ask 2. A summary
goes to standard error. With N of at least 2,000, R of at least 250 and P of at least 550 the exit
status is 1 if some call, or a step of rows, did not reach some refusal number that it can give.

A case of rows (call 23) makes x steps, at most 64, on the first string, after a start on the
second, or on the first where the second is empty. Its line: refusal and place of the start;
if it was accepted, for each step `s`, its refusal and place, `o` with the output after
it, and `v` with its variant; last `w`. The output is filled once, before the start.

Every line ends with `v` and the variant of its reply, of rows that of the start's.
"""

import argparse
import random
import sys
from collections import Counter
from itertools import chain, islice

import pgen_reference as reference
from pgen_cases import FLIP, HEADER, LOOKUP, PHASES, READ, ROWS, VIEW, WHOLE_FILE, WRITE, WRITE_PHASED, random_case, sweep
from pgen_header import KIND_BITS, Refused, read_header
from pgen_limit_cases import limit_cases, named_in_second_block
from pgen_phase_cases import phase_cases, phase_sweep, random_phase_case
from pgen_record import RECORD_REFUSALS
from pgen_row_cases import GREATEST_STEPS, random_row_case, row_cases, row_sweep
from pgen_rows import next_row, start_rows
from pgen_variant_cases import variant_sweep
from scale_files import edge_cases

OUTPUT_FILL = b"\xa5"
WORK_FILL = b"\x5a"
STEP = 256  # no call's number: each step of rows is counted under it
CALLS = {
    HEADER: "header check", WHOLE_FILE: "whole-file check", READ: "read", LOOKUP: "lookup",
    VIEW: "view", WRITE: "write a record", FLIP: "flip", PHASES: "phases", WRITE_PHASED: "write a phased record",
    ROWS: "rows", STEP: "step",
}
HEADER_REFUSALS = list(range(1, 10))
POSSIBLE = {
    HEADER: HEADER_REFUSALS,
    WHOLE_FILE: HEADER_REFUSALS + [10] + RECORD_REFUSALS,
    READ: HEADER_REFUSALS + [10, 11] + RECORD_REFUSALS,
    LOOKUP: HEADER_REFUSALS + [10, 11] + RECORD_REFUSALS,
    VIEW: HEADER_REFUSALS + [11],
    WRITE: [4, 10, 19, 20],
    FLIP: HEADER_REFUSALS + [10, 21] + RECORD_REFUSALS,
    PHASES: HEADER_REFUSALS + [10, 11] + RECORD_REFUSALS,
    WRITE_PHASED: [4, 10, 19, 20, 22],
    ROWS: HEADER_REFUSALS + [10],
    STEP: [8, 9, 10, 11] + RECORD_REFUSALS,
}
LIMITS = (524288, 131072, 131072, 131072)
BAD_ENDS = {
    "none": b"",
    "other-call": bytes([24]) + bytes(32),
    "call-0": bytes(33),
    "over-A": bytes([1]) + bytes(16) + (524289).to_bytes(4, "little") + bytes(12),
    "over-W": bytes([2]) + bytes(28) + (131073).to_bytes(4, "little"),
    "over-phases": bytes([WRITE_PHASED]) + bytes(28) + (131073).to_bytes(4, "little"),
    "cut-head": bytes([1]) + bytes(31),
    "over-steps": bytes([ROWS, GREATEST_STEPS + 1]) + bytes(31),
    "far-over-steps": bytes([ROWS]) + (1 << 32).to_bytes(8, "little") + bytes(24),
}


def input_bytes(case):
    """A case in the probe's input form."""
    sizes = (len(case.first), len(case.second), case.output, case.work + len(case.third))
    assert all(size <= limit for size, limit in zip(sizes, LIMITS)), sizes
    head = bytes([case.call]) + case.x.to_bytes(8, "little") + case.y.to_bytes(8, "little")
    head += b"".join(size.to_bytes(4, "little") for size in sizes)
    return head + case.first + case.second + case.third


def rows_reply(case, output, work):
    """The start's numbers; each step's under letters of their own, with the output after it."""
    *numbers, state = start_rows(case.second or case.first, work)
    parts = []
    for _ in range(case.x if state else 0):
        number, place, variant, state, output, work = next_row(state, case.first, output, work)
        parts += [("s", [number, place]), ("o", output), ("v", [variant])]
    return numbers, parts + [("w", work)]


def written(case, output):
    """A writer's reply."""
    if case.call == WRITE:
        return reference.write_record(case.first, case.x, case.y, case.second, output)
    return reference.write_phased_record(case.first, case.third, case.x, case.y, case.second, output)


def reply_to(case):
    """The reply's numbers but for its variant, and what is printed behind them, each part with its letter; last the variant."""
    (number, place, variant, *results), parts = called(case)
    return [number, place, *results], [*parts, ("v", [variant])]


def called(case):
    """All numbers of the reply, and the buffers that are printed, each with its letter."""
    output = OUTPUT_FILL * case.output
    work = WORK_FILL * case.work
    if case.call == HEADER:
        return reference.header_check(case.first), []
    if case.call == WHOLE_FILE:
        *numbers, later = reference.whole_file_check(case.first, work)
        return numbers, [("w", later)]
    if case.call in (READ, PHASES):
        reading = reference.read if case.call == READ else reference.read_phases
        *numbers, later_output, later = reading(case.first, case.x, output, work)
        return numbers, [("o", later_output), ("w", later)]
    if case.call == LOOKUP:
        *numbers, later = reference.lookup(case.first, case.x, case.y, work)
        return numbers, [("w", later)]
    if case.call == VIEW:
        *numbers, part = reference.view(case.first, case.x)
        return numbers + [len(part)], [("p", part)]
    if case.call in (WRITE, WRITE_PHASED):
        *numbers, later_output = written(case, output)
        return numbers, [("o", later_output)]
    if case.call == ROWS:
        return rows_reply(case, output, work)
    *numbers, file, later = reference.flip(case.first, case.second, work)
    return numbers, [("f", file), ("w", later)]


def line_of(numbers, parts):
    """The line for a reply."""
    words = [str(number) for number in numbers]
    for letter, data in parts:
        words += [letter, *([data.hex() or "-"] if isinstance(data, bytes) else map(str, data))]
    return " ".join(words)


def replies_of(case, numbers, parts):
    """Refusal, place and variant of a reply under its call, and of each step of rows."""
    *of_steps, variant = (data[0] for letter, data in parts if letter == "v")
    yield case.call, *numbers[:2], variant
    steps = (data for letter, data in parts if letter == "s")
    yield from ((STEP, *step, named) for step, named in zip(steps, of_steps))


def refusals_of(case, numbers, parts):
    """The refusal alone, likewise."""
    return ((call, number) for call, number, _, _ in replies_of(case, numbers, parts))


def kinds_of(case):
    """The kinds that an accepted call concerned."""
    if case.call in (WRITE, WRITE_PHASED):
        return {case.x}
    try:
        header = read_header(case.first)
    except Refused:
        return set()
    types = [header.types[case.x]] if case.call in (READ, PHASES, LOOKUP, VIEW) else header.types
    return {its_type & KIND_BITS for its_type in types}


def all_cases(seed, count, rows):
    """The cases, from a seed: so many, and then so many of rows."""
    rng = random.Random(seed)
    first = list(limit_cases(rng))
    swept = sweep(rng)
    endless = (random_case(rng) for _ in iter(int, 1))
    of_rows = row_cases(random.Random(f"rows {seed}"))
    return chain(islice(chain(first, swept, endless), max(count, len(first))), islice(of_rows, rows))


def cases_of_phases(seed, count):
    """So many cases of phases, from a seed."""
    return islice(phase_cases(random.Random(f"phases {seed}")), count)


def cases_of_variants(seed):
    """The cases of Ask 2, from a seed."""
    rng = random.Random(f"variants {seed}")
    return chain(named_in_second_block(rng), variant_sweep(rng))


def fresh_cases(seed, count):
    """Every fault and every edge with every call, and then random cases: a seed's cases without those named "Tested only"."""
    rng = random.Random(f"fresh {seed}")
    families = [random_case] * 5 + [random_row_case] + [random_phase_case] * 2
    endless = (rng.choice(families)(rng) for _ in iter(int, 1))
    return islice(chain(sweep(rng), edge_cases(rng), row_sweep(rng), phase_sweep(rng), variant_sweep(rng), endless), count)


class Summary:
    """How often each call, kind and refusal number occurred."""

    def __init__(self):
        self.calls = Counter()
        self.kinds = Counter()
        self.refusals = Counter()
        self.pairs = Counter()

    def add(self, case, numbers, parts):
        """Count one case."""
        for call, number in refusals_of(case, numbers, parts):
            self.calls[call] += 1
            self.refusals[number] += 1
            self.pairs[call, number] += 1
        if numbers[0] == 0 and case.call not in (HEADER, ROWS):
            self.kinds.update(kinds_of(case))

    def missing(self):
        """The refusals that a call can give and did not."""
        return [(call, number) for call, numbers in POSSIBLE.items()
                for number in [0] + numbers if not self.pairs[call, number]]

    def show(self, out):
        """Print the summary."""
        for call, name in CALLS.items():
            numbers = [0] + POSSIBLE[call]
            reached = " ".join(f"{number}:{self.pairs[call, number]}" for number in numbers)
            print(f"{name}: {self.calls[call]}; refusals {reached}", file=out)
        kinds = " ".join(f"{kind}:{self.kinds[kind]}" for kind in sorted(self.kinds))
        print(f"kinds in accepted calls: {kinds}", file=out)
        refusals = " ".join(f"{number}:{self.refusals[number]}" for number in range(26))
        print(f"all refusals: {refusals}", file=out)


def parse_arguments():
    """The command line."""
    parser = argparse.ArgumentParser(description=__doc__.splitlines()[0])
    parser.add_argument("--seed", type=int, default=1)
    parser.add_argument("--cases", type=int, default=2000)
    parser.add_argument("--rows", type=int, default=250)
    parser.add_argument("--phases", type=int, default=550)
    parser.add_argument("--stdin", required=True, help="where the probe's input goes")
    parser.add_argument("--stdout", required=True, help="where the lines go")
    parser.add_argument("--end", choices=sorted(BAD_ENDS), default="none",
                        help="a bad head after the cases")
    return parser.parse_args()


def main():
    """Write both files and the summary."""
    arguments = parse_arguments()
    summary = Summary()
    with open(arguments.stdin, "wb") as to_probe, open(arguments.stdout, "w") as lines:
        for case in chain(all_cases(arguments.seed, arguments.cases, arguments.rows), cases_of_phases(arguments.seed, arguments.phases),
                          cases_of_variants(arguments.seed)):
            reply = reply_to(case)
            to_probe.write(input_bytes(case))
            lines.write(line_of(*reply) + "\n")
            summary.add(case, *reply)
        if arguments.end != "none":
            to_probe.write(BAD_ENDS[arguments.end])
            lines.write("bad case\n")
    summary.show(sys.stderr)
    missing = summary.missing()
    for call, number in missing:
        print(f"not reached: {CALLS[call]}, refusal {number}", file=sys.stderr)
    return 1 if missing and arguments.cases >= 2000 and arguments.rows >= 250 and arguments.phases >= 550 else 0


if __name__ == "__main__":
    sys.exit(main())
