"""Lists whose groups have steps of chosen byte sizes, and faults at chosen places of them, each with what is to be told of it.

A reader may pass the steps of a group at once where each has one byte or two, and must walk where one has three or is at fault. These lists stand at
the edges of that. Chance hardly draws them: a whole group of steps of two bytes needs N above 8,000, one of three bytes N above 16,384.
"""

from itertools import accumulate
from typing import Callable, NamedTuple

from pgen_generate import choose_form, make_record, record_of_samples
from pgen_header import LEANING_KINDS
from pgen_parts import FileParts, RecordParts, TrackParts
from pgen_phase_generate import WIDE_TYPES, choose_track
from pgen_record import GROUP, varint

GREATEST_STEPS = (127, 16383, 65536)  # by their bytes; no sample number rises by more than the last
BEFORE_ENTRIES, AT_ENTRY, IN_TRACK, BEHIND = range(4)  # document 01's order: unused value bits, entry by entry, the phase track, bytes left
VARINT, NUMBER, VALUE, SIZE = range(4)  # and of an entry, the last for the last one of a group


def spots(count):
    """The first, a middle and the last place."""
    return [0, count // 2, count - 1][:count]


def of_one_byte(rng, count):
    """Small ones, so that N can be below 128 and each step that goes past it has one byte too."""
    return [rng.choice([1, 1, 1, 1, 2]) for _ in range(count)]


def greatest_of_one_byte(rng, count):
    steps = of_one_byte(rng, count)
    for spot in spots(count):
        steps[spot] = 127
    return steps


def of_two_bytes(rng, count):
    """Mostly the least one, as a whole group of them makes N large; one has all bits of its first byte set."""
    steps = [128] * count
    for spot, step in zip(rng.sample(range(count), min(count, 3)), (129, 255, 256)):
        steps[spot] = step
    return steps


def greatest_of_two_bytes(rng, count):
    steps = of_two_bytes(rng, count)
    steps[rng.randrange(count)] = 16383
    return steps


def of_both(rng, count):
    """Of one byte and of two: those of two at the first, a middle and the last place, and at two others."""
    steps = of_one_byte(rng, count)
    for spot in spots(count) + rng.sample(range(count), min(count, 2)):
        steps[spot] = rng.randint(128, 200)
    return steps


def of_one_byte_but(step, place):
    """The style of steps of one byte with this one at a place: 0 for the first, 1 for a middle, 2 for the last."""
    def style(rng, count):
        steps = of_one_byte(rng, count)
        steps[(0, count // 2, count - 1)[place]] = step
        return steps
    return style


def as_if_of_two_bytes(rng, count):
    """As many bytes as if all had two, though one has one and one three."""
    steps = of_two_bytes(rng, count)
    for spot, step in zip(rng.sample(range(count), 2), (1, 16384)):
        steps[spot] = step
    return steps


class Shape(NamedTuple):
    """N and a list's samples."""

    N: int
    samples: list

    def steps(self, group):
        """The steps of a group."""
        samples = self.samples[GROUP * group:GROUP * (group + 1)]
        return [later - earlier for earlier, later in zip(samples, samples[1:])]

    def last_group(self):
        """The number of its last group."""
        return (len(self.samples) - 1) // GROUP

    def size_byte(self, group):
        """The right one."""
        return sum(len(varint(step)) for step in self.steps(group)) - 63


def shape_of(rng, *groups, room=None):
    """A list of such groups, each a style and its number of entries. So many samples are behind its last; without a number none, one or a few.
    Now and then it begins so high that sample numbers take two bytes, however small its steps are."""
    samples, before = [], rng.choice([-1, -1, 1, 299])
    for style, entries in groups:
        head = before + rng.choice([1, 1, 3])
        samples += accumulate(style(rng, entries - 1), initial=head)
        before = samples[-1]
    return Shape(before + 1 + (rng.choice([0, 1, 6]) if room is None else room), samples)


class Fault(NamedTuple):
    """How a record is changed, and what is told of it: when in document 01's order, with which number, and at which part of the record.
    Of several changes those of lower rank come first."""

    change: Callable
    turn: tuple
    number: int
    part: tuple
    rank: int = 0


def put_step(its_list, group, index, data, fitted):
    """A step's bytes; the size byte says their number if it is fitted, else that of before."""
    its_list.steps[group][index] = data
    if fitted and group < len(its_list.size_bytes):
        its_list.size_bytes[group] = sum(map(len, its_list.steps[group])) - 63


def step_fault(change, number, group, index):
    """A fault of a step."""
    rule = VARINT if number in (12, 15) else NUMBER
    return Fault(change, (AT_ENTRY, GROUP * group + index + 1, rule), number, ("step", group, index))


def step_is(group, index, data, number, fitted=True):
    """These bytes for a step."""
    return step_fault(lambda record: put_step(record.list, group, index, data, fitted), number, group, index)


def zero_made_up_for(shape, group, index):
    """A step of 0; the next one is longer by what is lost, so that the later samples are the right ones."""
    def change(record):
        put_step(record.list, group, index, b"\0", True)
        put_step(record.list, group, index + 1, varint(sum(shape.steps(group)[index:index + 2])), True)
    return step_fault(change, 23, group, index)


def step_past(shape, group, index, greatest=False):
    """A step to N exactly, or the greatest one that has no more bytes."""
    least = shape.N - shape.samples[GROUP * group + index]
    step = next(most for most in GREATEST_STEPS if least <= most) if greatest else least
    return step_is(group, index, varint(step), 24)


def steps_round(group, index, steps):
    """These steps from a place on, of which the first goes past N: their sum, taken in one byte or in two, is a sample again."""
    def change(record):
        for at, step in enumerate(steps, index):
            put_step(record.list, group, at, varint(step), True)
    return step_fault(change, 24, group, index)


def head_is(group, sample, number):
    """A sample for the first of a group; without one it stays as it is, and is at fault by what stands before it."""
    def change(record):
        record.list.heads[group] = record.list.heads[group] if sample is None else sample
    return Fault(change, (AT_ENTRY, GROUP * group, NUMBER), number, ("head", group))


def held_back(entry, which=0):
    """A value that the list must not hold; of kind 1's two the first or the second."""
    def change(record):
        values = record.list.held_back[entry]
        record.list.values[entry] = values[which % len(values)]
    return Fault(change, (AT_ENTRY, entry, VALUE), 17, ("value", entry))


def unused_bit(bit):
    """A bit set behind the last value."""
    def change(record):
        record.list.unused = 1 << bit
    return Fault(change, (BEFORE_ENTRIES,), 18, ("last values",))


def size_is(group, size):
    """A size byte that is wrong."""
    def change(record):
        record.list.size_bytes[group] = size
    return Fault(change, (AT_ENTRY, GROUP * group + GROUP - 1, SIZE), 25, ("size", group), 1)


def cut_at(group, index, kept=0):
    """The record ends with so many bytes of a step, of which it has more."""
    def change(record):
        steps = record.list.steps
        steps[group][index:] = [steps[group][index][:kept]]
        del steps[group + 1:]
        record.track = None
    return Fault(change, (AT_ENTRY, GROUP * group + index + 1, VARINT), 12, ("end",), 2)


def track_missing():
    """The record ends with its list, and its type has bit 4."""
    def change(record):
        record.track = None
    return Fault(change, (IN_TRACK,), 12, ("end",), 2)


def track_for_step(shape, kept):
    """The last step has none of its bytes, or one of two. The first byte of the track, a 0 as all are phased, then stands in its place, or for its second
    byte."""
    group = shape.last_group()
    index = len(shape.steps(group)) - 1

    def change(record):
        record.list.steps[group][index] = record.list.steps[group][index][:kept]
        record.track = TrackParts(False, [1] * record.categories.count(1))
    return step_fault(change, 15 if kept else 23, group, index)


def bytes_left(data):
    """Bytes behind all that the record announces."""
    def change(record):
        record.tail = data
    return Fault(change, (BEHIND,), 13, ("tail",), 2)


def place_of(record, part):
    """Where a part of a record stands, from the record's first byte on."""
    what, *at = part
    its_list, whole = record.list, len(record.join())
    heads = len(record.front) + len(its_list.count)
    sizes = heads + its_list.width * len(its_list.heads)
    values = sizes + len(its_list.size_bytes)
    if what == "step":
        group, index = at
        before = [step for steps in its_list.steps[:group] for step in steps] + its_list.steps[group][:index]
        return values + (len(its_list.values) + 3) // 4 + sum(map(len, before))
    return {"head": heads + its_list.width * sum(at), "size": sizes + sum(at), "value": values + sum(at) // 4,
            "last values": values + (len(its_list.values) - 1) // 4, "end": whole, "tail": whole - len(record.tail)}[what]


def nothing_behind(rng, N, anchor, cut_off):
    return []


def bytes_behind(rng, N, anchor, cut_off):
    """Records of kind 0 that begin with what was cut off the list's, or with bytes that would go on as its steps."""
    size, used = (N + 3) // 4, (N - 1) % 4 + 1
    data = bytearray(cut_off + b"\1" * (size - len(cut_off) % size))
    for last in range(size - 1, len(data), size):
        data[last] &= (1 << 2 * used) - 1
    return [RecordParts(0, None, data[at:at + size]) for at in range(0, len(data), size)]


def leaning_behind(rng, N, anchor, cut_off):
    """A record that leans on the list's, or on its anchor."""
    return [record_of_samples(rng, N, rng.choice(LEANING_KINDS), anchor, [rng.randrange(N)])]


def track_like_steps(rng, categories):
    """A track whose presence bits make bytes of 1, which would go on as steps of the list."""
    return TrackParts(True, [rng.choice([1, 2]) if call % 8 == 7 else 0 for call in range(categories.count(1))])


def file_with(rng, shape, kind, tracked, behind, faults=()):
    """A file and the variant in it that has this kind and list, with a phase track if wished, these faults, and this behind it."""
    N, leaning = shape.N, kind in LEANING_KINDS
    before = [make_record(rng, N, 0, None)] if leaning else [make_record(rng, N, 4, None, 0) for _ in range(rng.randrange(2))]
    record = record_of_samples(rng, N, kind, before[0].categories if leaning else None, shape.samples)
    right = record.main_track()
    if tracked:
        record.track = rng.choice([choose_track, track_like_steps])(rng, record.categories)
    types = [each.type() for each in (*before, record)]  # a record that loses its track keeps its type
    for fault in sorted(faults, key=lambda fault: fault.rank):
        fault.change(record)
    after = behind(rng, N, (before[0] if leaning else record).categories, right[len(record.join()):])
    form = choose_form(rng, 0x10) | (WIDE_TYPES if tracked else 0)
    parts = FileParts(0x10, form, N, [*before, record, *after], [rng.randrange(2) for _ in (*before, record, *after)])
    parts.types[:len(types)] = types
    return parts, len(before)
