"""Every value of each field of one byte; of the writer's kind and pair code, variant and sample numbers and lengths lent, values around and far above
what is allowed: all the cases, and the table of what each value gets.

The table is committed as every_value.txt: refusal, place and, behind a `v`, the variant, then the values in hex that get it; where several calls
or several faults behind give several replies, all of them; "then" between the different replies of a walk's steps.
"""

from functools import partial
from itertools import groupby
from textwrap import wrap

from pgen_byte_headers import ALL_BYTES, N, Sweep, first_bytes, how_many, in_turn, types
from pgen_cases import FLIP, LOOKUP, READ, ROWS, VIEW, WHOLE_FILE, WRITE, Case
from pgen_parts import FILE_A, FileParts, ListParts, RecordParts, join_file
from pgen_record import PAIRS
from probe_cases import replies_of, reply_to

# the calls that check a record: the one with the field is variant 0, and variant 1 leans on it
CALLS_ON_RECORDS = [
    Case(READ, 0, output=6, work=7), Case(READ, 1, output=5, work=5), Case(WHOLE_FILE, work=6), Case(LOOKUP, 0, 1, work=5),
    Case(FLIP, second=b"\1", work=6), Case(ROWS, 3, output=6, work=7)]
ABOVE_A_BYTE = [base + k for base in (1 << 8, 1 << 16, 1 << 31, 1 << 32, 1 << 63, (1 << 64) - 256) for k in range(10)] + [(1 << 64) - 1]
WRITER_KINDS = (0, 1, 2, 3, 4, 6, 7)


def record_case(call, kind, body, samples):
    """A call on a file whose first record has this body; the second leans on it."""
    file, _ = join_file(FileParts(0x10, 0, samples, [RecordParts(kind, None, body), RecordParts(2, None, b"\0")], []))
    lent = {part: getattr(call, part) + samples - N for part in ("output", "work") if getattr(call, part)}
    return call._replace(first=file, **lent)


def record_sweep(name, kind, right, body_of, bodies_behind, samples=N):
    """Every value in a record, in one call after another."""
    alone, behind = [], []
    for value in ALL_BYTES:
        for call in in_turn(CALLS_ON_RECORDS, value, how_many(value, right, 2)):
            alone.append((value, record_case(call, kind, body_of(value), samples)))
        for turn, body in enumerate(in_turn(bodies_behind(value), value, how_many(value, right, 1))):
            behind.append((value, record_case(CALLS_ON_RECORDS[(value + turn + 2) % len(CALLS_ON_RECORDS)], kind, body, samples)))
    return Sweep(name, alone, behind)


def pair_code():
    """The code of kind 1; behind it: no more bytes, unused bits, a padded and a too large count, each value in a list, a byte too many."""
    def body(code, rest):
        return bytes([code]) + bytes.fromhex(rest)
    rests = ["", "e600", "068000", "0606", *(f"060101{value:02x}" for value in range(4)), "060000"]
    return record_sweep("pair code", 1, set(PAIRS), lambda code: body(code, "0600"), lambda code: [body(code, rest) for rest in rests])


def size_byte():
    """The one size byte of 65 entries; behind it: the second group's number not rising, a byte too many."""
    parts = ListParts(65, [(sample, 1) for sample in range(65)], [])
    right = parts.join()
    parts.heads[1] = 63

    def with_size(data, value):
        return data[:3] + bytes([value]) + data[4:]
    return record_sweep("size byte", 4, {0}, lambda value: with_size(right, value),
                        lambda value: [with_size(parts.join(), value), with_size(right + b"\0", value)], 65)


def writer_case(kind, code):
    """All is allowed but the kind or the code; the rest is as their lowest bytes would have it."""
    anchor = bytes([0, 1, 2, 3, 0]) if kind % 256 in (2, 3) else b""
    return Case(WRITE, kind, code, bytes([0, 1, 1, 0, 3]), anchor, 8)


def writer_sweep(name, values, right, case_of):
    """These values; behind them a wrong anchor, a category above 3, an output that is too short."""
    faults = [lambda case: case._replace(second=case.second + b"\0"), lambda case: case._replace(first=b"\0\1\4\0\3"),
              lambda case: case._replace(output=0)]
    alone = [(value, case_of(value)) for value in values]
    return Sweep(name, alone, [(value, fault(case)) for value, case in alone for fault in in_turn(faults, value, how_many(value, right, 1))])


def writer():
    """The kind, with the code that it asks for, and the code in each kind: every value of a byte and many above; few where the code must be 0."""
    every, few = [*ALL_BYTES, *ABOVE_A_BYTE], [*range(10), *ABOVE_A_BYTE]
    yield writer_sweep("writer's kind", every, set(WRITER_KINDS), lambda kind: writer_case(kind, int(kind % 256 == 1)))
    for kind in WRITER_KINDS:
        right = set(PAIRS) if kind == 1 else {0}
        yield writer_sweep(f"writer's pair code, kind {kind}", every if kind < 3 else few, right, partial(writer_case, kind))


def argument_sweep(name, values, case, part, behind, of=int):
    """These values for one argument of a call on file A; behind them another argument, or a file with a fault in variant 0."""
    alone = [(value, case._replace(first=FILE_A, **{part: of(value)})) for value in values]
    return Sweep(name, alone, [(value, each._replace(**behind)) for value, each in alone])


def arguments():
    """Variant and sample numbers; the lengths of what is lent, which N = 5 decides."""
    numbers, lengths = [*range(9), *ABOVE_A_BYTE], range(9)
    read, lookup, flip = Case(READ, 1, output=6, work=7), Case(LOOKUP, 1, 2, work=6), Case(FLIP, second=b"\2", work=6)
    wrong = {"first": FILE_A[:26] + b"\4" + FILE_A[27:]}
    yield argument_sweep("variant to read", numbers, read, "x", wrong)
    yield argument_sweep("variant to look up", numbers, lookup, "x", wrong)
    yield argument_sweep("sample to look up", numbers, lookup, "y", wrong)
    yield argument_sweep("variant to look up sample 5 of", numbers, lookup._replace(y=5), "x", wrong)
    yield argument_sweep("variant to view", numbers, Case(VIEW), "x", wrong)
    yield argument_sweep("length of a read's output", lengths, read, "output", {"x": 3})
    yield argument_sweep("length of a read's work area", lengths, read, "work", {"x": 3})
    yield argument_sweep("length of a lookup's work area", lengths, lookup, "work", {"y": 5})
    yield argument_sweep("length of a whole-file check's work area", lengths, Case(WHOLE_FILE), "work", wrong)
    yield argument_sweep("length of a flip's work area", lengths, flip, "work", {"second": b"\xff"})
    yield argument_sweep("length of a start's work area", lengths, Case(ROWS, 2, output=6), "work", wrong)
    yield argument_sweep("length of a step's output", lengths, Case(ROWS, 2, work=6), "output", wrong)
    yield argument_sweep("flip set", ALL_BYTES, flip, "second", wrong, lambda value: bytes([value]))
    yield argument_sweep("length of a flip set", lengths, flip, "second", wrong, bytes)


def sweeps():
    """All of them."""
    yield from first_bytes()
    yield from types()
    yield pair_code()
    yield size_byte()
    yield from writer()
    yield from arguments()


def byte_cases(swept=sweeps):
    """All cases."""
    for sweep in swept():
        yield from (case for _, case in sweep.alone + sweep.behind)


def in_short(reply, *steps):
    """A reply's refusal, place and variant; of rows those of its steps, each once, but for 11 past the last variant."""
    told = dict.fromkeys(step[1:] for step in steps if step[1] != 11) or [reply[1:]]
    return " then ".join(f"{number} {place} v{variant}" for number, place, variant in told)


def runs(values):
    """Values in hex, those that follow one another as one run."""
    found = []
    for value in values:
        if found and value == found[-1][1] + 1:
            found[-1][1] = value
        else:
            found.append([value, value])
    return " ".join(f"{low:02x}" if low == high else f"{low:02x}-{high:02x}" for low, high in found)


def same_replies(cases):
    """The values that get the same replies, under these replies."""
    same = {}
    for value, group in groupby(cases, lambda each: each[0]):
        replies = dict.fromkeys(in_short(*replies_of(case, *reply_to(case))) for _, case in group)
        same.setdefault(", ".join(replies), []).append(value)
    return same


def table(swept=sweeps):
    """What each value gets, as text."""
    lines = []
    for sweep in swept():
        for cases, setting in ((sweep.alone, ""), (sweep.behind, ", with a second fault behind")):
            lines += [sweep.name + setting] if cases else []
            for replies, values in same_replies(cases).items():
                lines += wrap(f"{replies}: {runs(values)}", 158, initial_indent="  ", subsequent_indent="    ")
    return "\n".join(lines) + "\n"
