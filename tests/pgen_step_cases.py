"""Cases of lists with steps of chosen byte sizes: right ones, each fault at the edges of a group, and each two of them.

Each list is met by every call that reads a record, each time in a record of another kind, with or without a phase track, and with other bytes or
nothing behind it. Every case has the reply that it aims at.
"""

from itertools import product
from typing import NamedTuple, Optional

from pgen_cases import FLIP, LOOKUP, ON_ONE_VARIANT, ROWS, Case, Subject
from pgen_generate import LIST_KINDS
from pgen_header import leans
from pgen_parts import join_file
from pgen_phase_cases import members_around
from pgen_record import GROUP, varint
from pgen_row_cases import whole_walk
from pgen_step_lists import (Shape, as_if_of_two_bytes, bytes_behind, bytes_left, cut_at, file_with, greatest_of_one_byte, greatest_of_two_bytes, head_is,
                             held_back, leaning_behind, nothing_behind, of_both, of_one_byte, of_one_byte_but, of_two_bytes, place_of, shape_of, size_is,
                             spots, step_is, step_past, steps_round, track_for_step, track_missing, unused_bit, zero_made_up_for)
from pgen_variant_cases import ON_RECORDS, on_variant

STYLES = [of_one_byte, of_two_bytes, of_both]
SETTINGS = [(False, nothing_behind), (True, bytes_behind), (False, bytes_behind), (True, nothing_behind), (False, leaning_behind)]
PADDED = [b"\x80\0", b"\x81\0", b"\xff\0", b"\x80\x80\0", b"\xff\xff\0"]  # 0, 1, 127, 0 and 16,383 in more bytes than they need
LONG_STEPS = (16384, 1 << 21, (1 << 32) - 1)  # of three bytes, four and five
ALL_LISTED = Shape(256, list(range(256)))
TO_THE_GREATEST = Shape(65536, [*range(0, 64481, 1040), 65535])  # two bytes each


class Trial(NamedTuple):
    """A list, its faults, and whether its record must have a phase track (else it may)."""

    shape: Shape
    faults: tuple = ()
    tracked: Optional[bool] = None


class Aimed(NamedTuple):
    """A case, the list's variant, and what is to be told of it: number, place and variant."""

    case: Case
    variant: int
    reply: tuple


def two_groups(rng, style, entries=6):
    """A full group and a few entries, all of one style."""
    return shape_of(rng, (style, GROUP), (style, entries))


def right_lists(rng):
    """Groups of every style, alone, before a last group of 64 entries, 1, 2 and 63, and as that; most lists go to the last sample."""
    yield from (Trial(shape_of(rng, (style, GROUP), room=0)) for style in STYLES)
    for entries in (64, 1, 2, 63):
        for style in [*STYLES, greatest_of_one_byte]:
            yield Trial(shape_of(rng, (style, GROUP), (of_one_byte, GROUP), (style, entries), room=0 if entries > 2 else None))
        for place in range(3):
            three, one = of_one_byte_but(16384 + place, place), (of_one_byte, GROUP)
            groups = [(three, GROUP), one, (of_one_byte, entries)] if entries < 3 else [one, one, (three, entries)]
            yield Trial(shape_of(rng, *groups, room=0))
    yield from (Trial(shape_of(rng, (of_both, GROUP), (of_one_byte_but(step, 0), 2))) for step in (16383, 16384))
    yield from (Trial(shape_of(rng, (style, GROUP), (of_both, 2))) for style in (greatest_of_two_bytes, as_if_of_two_bytes))
    yield Trial(shape_of(rng, (of_one_byte, GROUP), (as_if_of_two_bytes, GROUP), room=0))
    yield from map(Trial, (ALL_LISTED, Shape(257, list(range(257))), TO_THE_GREATEST))


def past_the_end(rng):
    """A step to N, or far past it, at the edges of a full group and of the last; one of more bytes than two; a sum that comes round to a sample again."""
    for style, (group, greatest), place in product(STYLES, ((0, False), (0, True), (1, False)), range(3)):
        shape = two_groups(rng, style)
        yield Trial(shape, (step_past(shape, group, spots(len(shape.steps(group)))[place], greatest),))
    for style, index in product(STYLES, (0, 31, 62)):
        yield Trial(two_groups(rng, style), (step_is(0, index, varint(rng.choice(LONG_STEPS)), 24, rng.random() < 0.5),))
    for shape in (ALL_LISTED, TO_THE_GREATEST):
        yield Trial(shape, (step_past(shape, shape.last_group(), 62),))
    for index in (0, 31):
        yield Trial(two_groups(rng, of_one_byte), (steps_round(0, index, [127, 127, 2] + [1] * (60 - index)),))
        yield Trial(two_groups(rng, of_two_bytes), (steps_round(0, index, [16383, 16383, 16383, 16259] + [128] * (59 - index)),))


def wrong_heads(rng):
    """The first sample of a group is the last of the group before; and that group goes to the last sample of all, so that the next one's first is below it,
    is the same, or is past it."""
    for style in STYLES:
        N, samples = two_groups(rng, style)
        yield Trial(Shape(N, samples[:]), (head_is(1, samples[GROUP - 1], 23),))
        samples[GROUP - 1] = N - 1
        for head, number in ((None, 23), (N - 1, 23), (N, 24)):
            yield Trial(Shape(N, samples), (head_is(1, head, number),))


def wrong_steps(rng):
    """A step of 0, and ones that are not the shortest, at the first, a middle and the last place, in a full group and in the last."""
    for style, group, place, data in product(STYLES, (0, 1), range(3), (b"\0", *PADDED[:2], None)):
        shape = two_groups(rng, style) if group == 0 else shape_of(rng, (of_one_byte, GROUP), (style, 20))
        index = spots(len(shape.steps(group)))[place]
        if data == b"\0" and place < 2 and rng.random() < 0.5:
            fault = zero_made_up_for(shape, group, index)
        else:
            fault = step_is(group, index, data or rng.choice(PADDED[2:]), 23 if data == b"\0" else 15, rng.random() < 0.5)
        yield Trial(shape, (fault,))


def wrong_sizes(rng):
    """Size bytes one off, of 0, of 255, and as if all steps had two bytes or three: the first and the last of them; and one off before a last group without
    steps, where the record ends with the group."""
    for style in STYLES:
        shape = shape_of(rng, (style, GROUP), (of_one_byte, GROUP), (style, 6))
        for group in (0, 1):
            right = shape.size_byte(group)
            yield from (Trial(shape, (size_is(group, size),)) for size in sorted({(right - 1) % 256, right + 1, 0, 63, 126, 255} - {right}))
        shape = shape_of(rng, (style, GROUP), (style, 1))
        yield from (Trial(shape, (size_is(0, (shape.size_byte(0) + off) % 256),)) for off in (-1, 1))


def cuts(rng):
    """A record that ends before a step, or within it, at the edges of a full group and of the last; its phase track missing; its list taking from it."""
    for style in STYLES:
        for group, place in product((0, 1), range(3)):
            shape = two_groups(rng, style)
            index = spots(len(shape.steps(group)))[place]
            yield Trial(shape, (cut_at(group, index),))
            if shape.steps(group)[index] > 127:
                yield Trial(shape, (cut_at(group, index, 1),))
        yield Trial(shape, (track_missing(),), True)
        yield from (Trial(shape, (track_for_step(shape, kept),), True) for kept in (0, 1) if kept == 0 or shape.steps(1)[-1] > 127)


def left_behind(rng):
    """Bytes left behind a list, or behind its track, that would go on as steps."""
    for style, data in product(STYLES, (b"\0", b"\x01", b"\x80\x01")):
        yield Trial(two_groups(rng, style), (bytes_left(data),))


def wrong_values(rng):
    """A value that the list must not hold, at each of the four places of the first byte, of a middle one and of the last, which has one to four values, in
    every kind by every call; unused bits, the lowest and the highest."""
    first_and_middle = [(entry, rng.randint(1, 4)) for entry in (0, 1, 2, 3, 32, 33, 34, 35)]
    last = [(GROUP + place, used) for used in (1, 2, 3, 4) for place in range(used) if used < 4 or place == 3]
    for entry, used in first_and_middle + last:
        for _ in LIST_KINDS:  # the kinds go on by one from trial to trial
            shape = two_groups(rng, rng.choice([of_one_byte, of_both]), used)
            yield Trial(shape, (held_back(entry, rng.randrange(2)),))
    for used, highest in product((1, 2, 3), (False, True)):
        yield Trial(two_groups(rng, rng.choice(STYLES), used), (unused_bit(7 if highest else 2 * used),))


def faults_at(rng, shape, group, index):
    """Each fault of a step, or of the value of the entry that it leads to."""
    return {"zero": step_is(group, index, b"\0", 23, rng.random() < 0.5), "padded": step_is(group, index, rng.choice(PADDED), 15, rng.random() < 0.5),
            "past": step_past(shape, group, index, rng.random() < 0.5), "value": held_back(GROUP * group + index + 1, rng.randrange(2)),
            "cut": cut_at(group, index)}


def pairs_in(rng, shape, turn):
    """Each two faults in one list: of two entries, of one group or of two, both if one is of a value, else by turns; of one entry; of an entry and of its
    group, or of that before; and of what comes first and last in a record."""
    early, late, next_group = (faults_at(rng, shape, *at) for at in ((0, rng.randint(3, 20)), (0, rng.randint(40, 61)), (1, 2)))
    at_the_end = faults_at(rng, shape, 0, 62)
    wrong_size, unused, left = size_is(0, shape.size_byte(0) ^ 1), unused_bit(7), bytes_left(b"\x01")
    for number, (one, other) in enumerate(product(early, late), turn):
        if one != other:
            yield early[one], (late, next_group)[number % 2][other]
            if "value" in (one, other):
                yield early[one], (next_group, late)[number % 2][other]
    yield from ((late[name], late["value"]) for name in ("zero", "padded", "past"))
    for name in early:
        yield early[name], wrong_size
        yield wrong_size, next_group[name]
        yield unused, early[name]
        if name != "cut":
            yield at_the_end[name], wrong_size
            yield next_group[name], left
    yield from ((unused, wrong_size), (unused, left), (wrong_size, left))


def pairs(rng):
    """Each two faults, with steps of one byte, of two and of both; the last byte of values has an unused bit."""
    for turn, style in enumerate(STYLES):
        shape = two_groups(rng, style)
        yield from (Trial(shape, faults) for faults in pairs_in(rng, shape, turn))


def trials(rng):
    """All of them."""
    for family in (right_lists, past_the_end, wrong_heads, wrong_steps, wrong_sizes, cuts, left_behind, wrong_values, pairs):
        yield from family(rng)


def called_on(rng, call, subject, samples):
    """A call on the list's variant or, where one leans on it, on that: it is told the same. A lookup is mostly of a listed sample, a walk goes to the
    last variant."""
    follower = subject.variant + 1
    leaned_on = follower < subject.M and leans(subject.types[follower]) and not leans(subject.types[subject.variant])
    if call == FLIP:
        return members_around(rng, subject)
    if call == ROWS:
        return whole_walk(rng, subject)._replace(x=subject.M)
    case = on_variant(rng, call, subject, subject.variant)
    if leaned_on and call in ON_ONE_VARIANT:
        case = case._replace(x=rng.choice([subject.variant, follower]))
    return case._replace(y=rng.choice([case.y, samples[0], samples[-1], rng.choice(samples)])) if call == LOOKUP else case


def aimed(rng, trial, call, kind, setting):
    """A call on a file with the list in a record of this kind: of several faults the first in document 01's order is told."""
    parts, variant = file_with(rng, trial.shape, kind, *setting, trial.faults)
    file, marks = join_file(parts)
    case = called_on(rng, call, Subject(file, parts.M(), parts.N, variant, parts.types), trial.shape.samples)
    if not trial.faults:
        return Aimed(case, variant, (0, 0, 0))
    first = min(trial.faults, key=lambda fault: fault.turn)
    return Aimed(case, variant, (first.number, marks.starts[variant] + place_of(parts.records[variant], first.part), variant))


def aimed_cases(rng):
    """Every list with every call, the kind and what stands around it another from call to call and from list to list."""
    for turn, trial in enumerate(trials(rng)):
        settings = [setting for setting in SETTINGS if trial.tracked in (None, setting[0])]
        for number, call in enumerate(ON_RECORDS, turn):
            yield aimed(rng, trial, call, LIST_KINDS[number % len(LIST_KINDS)], settings[number % len(settings)])


def step_cases(rng):
    """The cases alone."""
    return (each.case for each in aimed_cases(rng))
