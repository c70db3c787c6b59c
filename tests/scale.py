"""The comparison at scale, outside the gate: many generated and damaged files through the probe, the listing program and the independent program.

    python3 tests/scale.py --files 200000 --seed 1 [--jobs 2]    each call on every file; a table of what was reached
    python3 tests/scale.py --seed 1 --only 4711 [--keep FOLDER]  file 4711 of seed 1 alone: its cases, both replies

A disagreement is printed with the words that run its file alone, and makes the exit status 1. So does, with 10,000 files or more, anything that
could be reached and was not: each refusal number of each call, each kind, mode and form. With --keep each case of the file is written to FOLDER as
the probe's input.
"""

import argparse
import hashlib
import multiprocessing
import sys
import time
from pathlib import Path

import pgen_reference as reference
from compare import run
from probe_cases import CALLS, input_bytes, line_of, replies_of, reply_to
from scale_counts import Counts
from scale_files import cases_of

PORTION = 200
LISTING_EVERY = 50
SHOWN = 20


def expected(case):
    """The independent program's replies, each with its call, and line; a fault of its own is a line that no probe prints."""
    try:
        reply = reply_to(case)
    except Exception as fault:
        return [(case.call, None, None, None)], f"the independent program failed: {fault!r}"
    return list(replies_of(case, *reply)), line_of(*reply)


def expected_listing(file):
    """The independent program's listing, likewise."""
    try:
        return reference.listing(file)
    except Exception as fault:
        return f"the independent program failed: {fault!r}"


class Portion:
    """Some files in a row: their cases joined for one run of the probe, and what came of them."""

    def __init__(self, seed, numbers):
        self.seed = seed
        self.counts = Counts()
        self.disagreements = []
        self.digests = set()
        self.data = bytearray()
        self.asked = []
        for number in numbers:
            self.add(number)

    def add(self, number):
        """One file with its cases; now and then also its listing."""
        name, cases = cases_of(self.seed, number)
        file = cases[0].first
        self.digests.add(hashlib.blake2b(file, digest_size=12).digest())
        self.counts.file(name, file)
        for case in cases:
            self.data += input_bytes(case)
            replies, line = expected(case)
            self.asked.append((number, case.call, line))
            self.counts.call(case, replies)
        if number % LISTING_EVERY == 0:
            want = expected_listing(file)
            self.counts.listing(want)
            self.compare(number, "listing", run("pgenlist", file).decode(), want)

    def compare(self, number, what, got, want):
        """One reply of our program and of the independent one."""
        if got != want:
            self.disagreements.append((number, what, got, want))

    def finish(self):
        """Runs the probe on all cases, and lets go of them."""
        got = run("probe", bytes(self.data)).decode().split("\n")
        for line, (number, call, want) in zip(got, self.asked):
            self.compare(number, CALLS[call], line, want)
        if len(got) != len(self.asked) + 1 or got[-1]:
            self.disagreements.append((self.asked[0][0], "number of lines", str(len(got)), str(len(self.asked) + 1)))
        self.data = self.asked = None
        return self


def portion(words):
    """A portion as a job."""
    return Portion(*words).finish()


def short(text):
    """A long line cut to its two ends."""
    text = text.rstrip("\n")
    return text if len(text) < 300 else f"{text[:200]} .. {text[-80:]} ({len(text)} characters)"


def show_disagreement(seed, number, what, got, want):
    """What is needed to run it alone."""
    print(f"DISAGREEMENT: seed {seed}, file {number}, {what}\n  got  {short(got)}\n  want {short(want)}")
    print(f"  alone: python3 tests/scale.py --seed {seed} --only {number} --keep FOLDER", flush=True)


def all_files(words):
    """Every file in portions, and the table."""
    started = time.monotonic()
    print(f"files {words.files}, seed {words.seed}, jobs {words.jobs}", flush=True)
    counts, digests, failed = Counts(), set(), 0
    work = [(words.seed, range(first, min(first + PORTION, words.files))) for first in range(0, words.files, PORTION)]
    with multiprocessing.Pool(words.jobs) as pool:
        for done, part in enumerate(pool.imap(portion, work), 1):
            counts.add(part.counts)
            digests |= part.digests
            for disagreement in part.disagreements[:max(0, SHOWN - failed)]:
                show_disagreement(words.seed, *disagreement)
            failed += len(part.disagreements)
            if done % 50 == 0:
                print(f"{min(done * PORTION, words.files)} files after {time.monotonic() - started:.0f} s, {failed} disagreements", flush=True)
    missing = list(counts.missing())
    print(counts.table(len(digests)))
    for line in missing:
        print(f"not reached: {line}")
    print(f"{counts.calls()} calls and {counts.listings()} listings on {words.files} files, seed {words.seed}: "
          f"{failed} disagreements, {time.monotonic() - started:.0f} s")
    return 1 if failed or (missing and words.files >= 10000) else 0


def one_file(words):
    """One file's cases, with both replies."""
    name, cases = cases_of(words.seed, words.only)
    file = cases[0].first
    print(f"seed {words.seed}, file {words.only}: damage {name}; {len(file)} bytes: {short(file.hex())}")
    same = True
    for at, case in enumerate(cases):
        got, want = run("probe", input_bytes(case)).decode(), expected(case)[1] + "\n"
        same = same and got == want
        lengths = f"{len(case.first)} {len(case.second)} {len(case.third)}"
        print(f"{CALLS[case.call]}: x {case.x}, y {case.y}, lengths {lengths}, output {case.output}, work {case.work}")
        print(f"  got  {short(got)}\n  want {short(want)}\n  {'same' if got == want else 'DIFFERENT'}")
        if words.keep:
            Path(words.keep).mkdir(parents=True, exist_ok=True)
            (Path(words.keep) / f"{words.only}-{at}.case").write_bytes(input_bytes(case))
    got, want = run("pgenlist", file).decode(), expected_listing(file)
    print(f"listing\n  got  {short(got)}\n  want {short(want)}\n  {'same' if got == want else 'DIFFERENT'}")
    return 0 if same and got == want else 1


def main():
    """The command line."""
    parser = argparse.ArgumentParser(description=__doc__.splitlines()[0])
    parser.add_argument("--files", type=int, default=200000)
    parser.add_argument("--seed", type=int, default=1)
    parser.add_argument("--jobs", type=int, default=1)
    parser.add_argument("--only", type=int, help="the number of one file")
    parser.add_argument("--keep", help="with --only: a folder for its cases as the probe's input")
    words = parser.parse_args()
    return all_files(words) if words.only is None else one_file(words)


if __name__ == "__main__":
    sys.exit(main())
