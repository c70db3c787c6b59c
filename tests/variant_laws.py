"""Ask 2 through the built programs: examples with replies worked out by hand from document 02, and the laws of the variant that a reply names. What stands
here is literal or told by the files' makers, not computed by the independent program."""

import random

from pgen_cases import FLIP, HEADER, LOOKUP, PHASES, READ, ROWS, VIEW, WHOLE_FILE, WRITE, WRITE_PHASED, Case
from pgen_header_damage import HEADER_FAULTS, faulted
from pgen_parts import FILE_A, join_file
from pgen_phase_damage import TRACK_FAULTS
from pgen_record import RECORD_REFUSALS
from pgen_record_damage import RECORD_FAULTS
from phase_laws import file_of
from program_laws import GREATEST_FILE, run_lines

FRESH_FILES = 50
FRESH_HEADERS = 100
GREATEST_READS = 20
# 66 samples; variant 1 lists 65 of them in two groups: its count at byte 25, heads at 26 and 27, size byte at 28, values from 29, steps from 46 to 108
LONG = file_of(66, (4, "00"), (4, "41" "0040" "00" + "55" * 16 + "01" + "01" * 63))
# five samples; an anchor at variant 1, its list at byte 27, and one that leans on it at variant 2, its list at byte 30
LEANING = file_of(5, (4, "00"), (4, "010203"), (2, "010001"))


def changed(file, changes):
    """The file with other bytes at some places."""
    later = bytearray(file)
    for place, value in changes.items():
        later[place] = value
    return bytes(later)


def told(line):
    """Refusal, place and variant of a line, as words."""
    words = line.split()
    assert words[-2] == "v", line
    return f"{words[0]} {words[1]} v {words[-1]}"


def numbers(said):
    """The three numbers of that."""
    return [int(word) for word in said.split() if word != "v"]


def calls_on(file, variant, N):
    """Three calls that check the record of a variant, and two that check all records."""
    no_members = bytes(-(-int.from_bytes(file[3:7], "little") // 8))
    return [Case(READ, variant, first=file, output=N, work=N), Case(PHASES, variant, first=file, output=N, work=N),
            Case(LOOKUP, variant, N - 1, first=file, work=N), Case(WHOLE_FILE, first=file, work=N), Case(FLIP, first=file, second=no_members, work=N)]


def record_examples():
    """Each rule of a list, in file A and in a list of two groups; the anchor's fault and the record's own."""
    for changes, want, variant in (({27: 6}, "16 27 v 1", 1), ({28: 5}, "24 28 v 1", 1), ({30: 0}, "23 30 v 1", 1), ({30: 4}, "24 30 v 1", 1),
                                   ({30: 0, 31: 6}, "23 30 v 1", 1), ({26: 4, 30: 0}, "18 26 v 0", 1), ({31: 6}, "16 31 v 2", 2), ({32: 5}, "24 32 v 2", 2)):
        yield from ((case, want) for case in calls_on(changed(FILE_A, changes), variant, 5))
    for changes, want in (({25: 67}, "16 25 v 1"), ({28: 1}, "25 28 v 1"), ({27: 63}, "23 27 v 1"), ({27: 0}, "23 27 v 1"), ({27: 66}, "24 27 v 1"),
                          ({27: 63, 28: 1}, "25 28 v 1"), ({27: 66, 28: 1}, "25 28 v 1"), ({28: 1, 108: 0}, "23 108 v 1"), ({26: 66, 28: 1}, "24 26 v 1"),
                          ({46: 0}, "23 46 v 1"), ({46: 66}, "24 46 v 1"), ({46: 65, 47: 0}, "23 47 v 1"), ({46: 65}, "24 47 v 1"),
                          ({25: 67, 28: 1}, "16 25 v 1")):
        yield from ((case, want) for case in calls_on(changed(LONG, changes), 1, 66))
    for changes, want in (({27: 6}, "16 27 v 1"), ({28: 5}, "24 28 v 1"), ({27: 6, 30: 6}, "16 27 v 1"), ({30: 6}, "16 30 v 2"), ({31: 5}, "24 31 v 2"),
                          ({26: 1, 30: 6}, "12 27 v 0")):
        asked = 0 if want.endswith("v 0") else 2
        yield from ((case, want) for case in calls_on(changed(LEANING, changes), asked, 5))


def header_examples():
    """Where no variant is concerned: M, and 0 in 1 to 4; types, of which the lower is named; every call on file A."""
    for file, want in ((FILE_A[:11], "1 11 v 0"), (changed(FILE_A, {0: 0}), "2 0 v 0"), (changed(FILE_A, {2: 3}), "3 2 v 0"),
                       (changed(FILE_A, {3: 0}), "4 3 v 0"), (changed(FILE_A, {7: 0}), "4 7 v 0"), (changed(FILE_A, {11: 0x48}), "5 11 v 3"),
                       (FILE_A[:24], "6 24 v 3"), (changed(FILE_A, {21: 0x14}), "7 21 v 3"), (changed(FILE_A, {12: 26}), "9 12 v 3"), (FILE_A[:33], "9 33 v 3"),
                       (changed(FILE_A, {20: 0x25}), "8 20 v 0"), (changed(FILE_A, {20: 0x50}), "8 20 v 1"), (changed(FILE_A, {20: 0x55}), "8 20 v 0"),
                       (changed(FILE_A, {20: 0x52}), "8 20 v 0"), (changed(FILE_A, {20: 0x80, 21: 5}), "8 20 v 1"), (changed(FILE_A, {21: 5}), "8 21 v 2")):
        calls = [Case(HEADER, first=file), Case(VIEW, 1, first=file), Case(VIEW, 9, first=file), Case(ROWS, 1, first=file, output=5, work=5)]
        yield from ((case, want) for case in calls + calls_on(file, 1, 5))


def argument_examples():
    """10, 11 and 21 name M; but 11 for a sample its variant, if there is such a variant. A writer's refusals name 0, and so does what is accepted."""
    yield Case(READ, 1, first=FILE_A, output=4, work=5), "10 0 v 3"
    yield Case(LOOKUP, 3, 5, first=FILE_A, work=4), "10 0 v 3"
    yield Case(WHOLE_FILE, first=FILE_A, work=4), "10 0 v 3"
    yield Case(FLIP, first=FILE_A, second=b"\0\0", work=5), "10 0 v 3"
    yield Case(ROWS, 1, first=FILE_A, output=5, work=4), "10 0 v 3"
    yield Case(FLIP, first=FILE_A, second=b"\x08", work=5), "21 0 v 3"
    for x, y, variant in ((0, 5, 0), (1, 5, 1), (2, 1 << 40, 2), (3, 5, 3), (3, 0, 3), (4, 9, 3), (1 << 32, 5, 3), ((1 << 64) - 1, 0, 3)):
        yield Case(LOOKUP, x, y, first=FILE_A, work=5), f"11 0 v {variant}"
    for x in (3, 4, 1 << 32):
        yield from ((case, "11 0 v 3") for case in calls_on(FILE_A, x, 5)[:2] + [Case(VIEW, x, first=FILE_A)])
    yield from ((case, "0 0 v 0") for case in [*calls_on(FILE_A, 2, 5), Case(VIEW, 2, first=FILE_A), Case(HEADER, first=FILE_A)])
    for case, want in ((Case(WRITE), "4 0"), (Case(WRITE, 5, first=b"\0"), "19 0"), (Case(WRITE, 0, 0, b"\0", b"\0"), "10 0"),
                       (Case(WRITE, 0, 0, b"\0\0\4"), "20 2"), (Case(WRITE_PHASED, 0, 0, b"\0\1\0", third=b"\0\1\2"), "22 2")):
        yield case, f"{want} v 0"


def step_examples():
    """Whole lines of walks: a refused record names itself, and what leans on it names it again; 11 and 9 name the state's M, 8 its variant."""
    kept, none, zeros = "0001020300", "a5a5a5a5a5", "0000000000"

    def walk(first, second, *steps):
        said = "".join(f" s {step} o {row} v {variant}" for step, row, variant in steps)
        return Case(ROWS, len(steps), first=first, second=second, output=5, work=5), f"0 0{said}"
    yield walk(changed(FILE_A, {26: 4}), b"", ("18 26", none, 0), ("18 26", none, 0), ("0 0", "0000030000", 0), ("11 0", "0000030000", 3))
    yield walk(changed(FILE_A, {30: 0}), b"", ("0 0", kept, 0), ("23 30", kept, 1), ("0 0", "0000030000", 0))
    yield walk(changed(LEANING, {28: 5, 31: 5}), b"", ("0 0", zeros, 0), ("24 28", zeros, 1), ("24 28", zeros, 1), ("11 0", zeros, 3))
    yield walk(changed(FILE_A, {20: 0x50}), FILE_A, ("0 0", kept, 0), ("8 20", kept, 1), ("8 20", kept, 1))
    yield walk(FILE_A[:30], FILE_A, ("0 0", kept, 0), ("9 30", kept, 3))
    yield walk(changed(FILE_A, {3: 9}), FILE_A, ("0 0", kept, 0), ("0 0", "0002020301", 0), ("0 0", "0000030000", 0), ("11 0", "0000030000", 3))


def check_variant_examples(tally, run, listed):
    """The examples through the probe, and the lists' rules through the listing program, which names no variant."""
    cases, want = zip(*record_examples(), *header_examples(), *argument_examples())
    tally.same("examples of variants", "\n".join(map(told, run_lines(run, cases))).encode(), "\n".join(want).encode(), len(want))
    cases, want = zip(*step_examples())
    got = [line.partition(" w ")[0] for line in run_lines(run, cases)]
    tally.same("examples of steps", "\n".join(got).encode(), "\n".join(want).encode(), len(want))
    for file, want in ((changed(FILE_A, {30: 0}), "refused 23 30\n"), (changed(FILE_A, {30: 4}), "refused 24 30\n"),
                       (changed(LONG, {28: 1}), "refused 25 28\n"), (changed(FILE_A, {27: 6}), "refused 16 27\n")):
        tally.same(f"listing: {want.strip()}", listed(file), want.encode())


def files_at_fault(rng):
    """Files with a fault in a record, each with N and where its records stand."""
    while True:
        parts, _ = rng.choice(RECORD_FAULTS + TRACK_FAULTS)(rng)
        file, marks = join_file(parts)
        if len(file) <= GREATEST_FILE and parts.M() <= GREATEST_READS:
            yield file, parts.N, [*marks.starts, len(file)]


def check_record_laws(tally, run, seed):
    """A refusal in a record names a variant whose record holds the place, and a read of that variant says the same. Every call says what a read does: of
    its variant, or where it checks all, of the first that is refused."""
    rng = random.Random(f"variants {seed}")
    wrong, count = [], 0
    for _, (file, N, starts) in zip(range(FRESH_FILES), files_at_fault(rng)):
        of_calls = [calls_on(file, variant, N) for variant in range(len(starts) - 1)]
        lines = iter(map(told, run_lines(run, [case for cases in of_calls for case in cases])))
        replies = [[next(lines) for _ in cases] for cases in of_calls]
        reads = [of_read for of_read, *_ in replies]
        first = next((reply for reply in reads if reply != "0 0 v 0"), "0 0 v 0")
        for variant, said in enumerate(replies):
            number, place, named = numbers(said[0])
            in_record = number in RECORD_REFUSALS and starts[named] <= place <= starts[named + 1]
            holds = said[0] == "0 0 v 0" or in_record and named <= variant and reads[named] == said[0]
            if not holds or said != [said[0]] * 3 + [first] * 2:
                wrong.append((file.hex(), variant, said))
            count += len(said)
    tally.same(f"variants of records, seed {seed}", repr(wrong).encode(), b"[]", count)


def check_header_laws(tally, run, seed):
    """A header's refusal names 0 in 1 to 4, of a type the variant whose type its byte holds, else M as the file has it; a view says the same."""
    rng = random.Random(f"variants of headers {seed}")
    files = [faulted(rng, rng.choice(HEADER_FAULTS))[2] for _ in range(FRESH_HEADERS)]
    lines = run_lines(run, [Case(HEADER, first=file) for file in files] + [Case(VIEW, first=file) for file in files])
    wrong = []
    for file, line, viewed in zip(files, map(told, lines), map(told, lines[len(files):])):
        number, place, named = numbers(line)
        if number == 8:  # from byte 20 on, as these files are too short for two blocks
            holds = 20 + (named if file[11] & 4 else named // 2) == place
        else:
            holds = named == (0 if number < 5 else int.from_bytes(file[3:7], "little"))
        if not holds or viewed != line:
            wrong.append((file.hex(), line, viewed))
    tally.same(f"variants of headers, seed {seed}", repr(wrong).encode(), b"[]", 2 * len(files))


def check_variant_laws(tally, run, seed):
    """All laws of variants."""
    check_record_laws(tally, run, seed)
    check_header_laws(tally, run, seed)
