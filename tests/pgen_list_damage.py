"""Targeted faults in difference lists; header, lengths and offsets stay right.

Each fault takes a random.Random and gives the parts of a file and the damaged variant. A rule of
Ask 2 takes N, a list and one of its groups, and breaks there.
"""

from itertools import combinations

from pgen_generate import COUNTS, LIST_KINDS, focused_file
from pgen_record import varint

FOCUS_N = [1, 2, 3, 5, 6, 7, 9, 63, 65, 66, 100, 130, 200, 255, 256, 257, 300, 700, 1500]


def padded(value, size):
    """A varint of this many bytes, not the shortest where it is longer than need be."""
    data = bytes(value >> 7 * i & 127 | 128 for i in range(size - 1))
    return data + bytes([value >> 7 * (size - 1) & 127])


def malformed_varints(rng, value):
    """A varint that is never right."""
    least = len(varint(value))
    return rng.choice([
        padded(value, rng.randint(min(least + 1, 5), 5)) if least < 5 else b"\x80" * 5,
        padded(value, 6),
        b"\x80" * 5 + bytes([rng.randrange(256)]),
        b"\xff" * rng.randint(5, 9),
        padded(value % (1 << 28), 4)[:-1] + b"\x80\x10",
        b"\xff\xff\xff\xff" + bytes([rng.randint(0x10, 0x7f)]),
        b"\x80\x00",
    ])


def with_list(rng, least, kinds=LIST_KINDS, sizes=FOCUS_N):
    """A file, its variant of interest and that record's list of at least so many entries."""
    N = rng.choice([N for N in sizes if N >= least])
    counts = [count for count in COUNTS + [N, N - 1] if least <= count <= N]
    parts, variant = focused_file(rng, rng.choice(kinds), rng.choice(counts), N)
    return parts, variant, parts.records[variant].list


def any_step(rng, its_list):
    """A step of the list: its group, its place in the group, its value."""
    groups = [g for g, steps in enumerate(its_list.steps) if steps]
    g = rng.choice(groups)
    i = rng.choice([0, len(its_list.steps[g]) - 1, rng.randrange(len(its_list.steps[g]))])
    samples = its_list.samples
    return g, i, samples[64 * g + i + 1] - samples[64 * g + i]


def cut_heads_or_values(rng):
    """A list that ends after its count and before its first step."""
    parts, variant, its_list = with_list(rng, 1)
    record = parts.records[variant]
    before = len(record.front) + len(its_list.count)
    fixed = len(its_list.heads) * its_list.width + len(its_list.size_bytes)
    fixed += -(-len(its_list.values) // 4)
    size = before + rng.choice([fixed - 1, fixed - 1, rng.randrange(fixed)])
    record.whole = record.join()[:size]
    return parts, variant


def count_malformed(rng):
    parts, variant, its_list = with_list(rng, 0)
    its_list.count = malformed_varints(rng, len(its_list.values))
    return parts, variant


def count_cut(rng):
    parts, variant, its_list = with_list(rng, 0)
    record = parts.records[variant]
    tops = bytes(rng.randint(128, 255) for _ in range(rng.randint(1, 5)))
    record.whole = bytes(record.front) + tops
    return parts, variant


def count_over_N(rng):
    parts, variant, its_list = with_list(rng, 0)
    N = parts.N
    its_list.count = varint(rng.choice([N + 1, N + 1, 2 * N + 64, 65537, (1 << 32) - 1]))
    return parts, variant


def count_off(rng):
    parts, variant, its_list = with_list(rng, 1)
    L = len(its_list.values)
    its_list.count = varint(rng.choice([L - 1, min(L + 1, parts.N), max(0, L - 64)]))
    return parts, variant


def step_malformed(rng):
    parts, variant, its_list = with_list(rng, 2)
    g, i, step = any_step(rng, its_list)
    its_list.steps[g][i] = malformed_varints(rng, step)
    return parts, variant


def step_cut(rng):
    parts, variant, its_list = with_list(rng, 2)
    g, i, _ = any_step(rng, its_list)
    tops = bytes(rng.randint(128, 255) for _ in range(rng.randint(0, 5)))
    its_list.steps[g][i:] = [tops]
    del its_list.steps[g + 1:]
    return parts, variant


def step_zero(rng):
    parts, variant, its_list = with_list(rng, 2)
    g, i, _ = any_step(rng, its_list)
    its_list.steps[g][i] = b"\0"
    return parts, variant


def step_past_N(rng):
    parts, variant, its_list = with_list(rng, 2)
    g, i, _ = any_step(rng, its_list)
    least = parts.N - its_list.samples[64 * g + i]
    wide = [least, least, least + 1, 65536, (1 << 32) - 1, (1 << 32) - its_list.samples[64 * g + i]]
    its_list.steps[g][i] = varint(rng.choice(wide) % (1 << 32))
    return parts, variant


def step_one_off(rng):
    parts, variant, its_list = with_list(rng, 2)
    g, i, step = any_step(rng, its_list)
    its_list.steps[g][i] = varint(rng.choice([step + 1, step - 1, step + 127]))
    return parts, variant


def head_past_N(rng):
    sizes = [N for N in FOCUS_N if N != 256]
    parts, variant, its_list = with_list(rng, 1, sizes=sizes)
    g = rng.randrange(len(its_list.heads))
    greatest = 256 ** its_list.width - 1
    its_list.heads[g] = rng.choice([parts.N, greatest, rng.randint(parts.N, greatest)])
    return parts, variant


def head_not_rising(rng):
    parts, variant, its_list = with_list(rng, 65)
    g = rng.randrange(1, len(its_list.heads))
    before = its_list.samples[64 * g - 1]
    its_list.heads[g] = rng.choice([before, before, before - 1, its_list.heads[g - 1], 0])
    return parts, variant


def size_byte_wrong(rng):
    parts, variant, its_list = with_list(rng, 65)
    g = rng.randrange(len(its_list.size_bytes))
    right = its_list.size_bytes[g]
    wrong = [right ^ 1, (right + 1) % 256, (right - 1) % 256, (right + 63) % 256, 255, right ^ 128]
    its_list.size_bytes[g] = rng.choice([size for size in wrong if size != right])
    return parts, variant


def value_held_back(rng):
    parts, variant, its_list = with_list(rng, 1)
    L = len(its_list.values)
    k = rng.choice([0, L - 1, rng.randrange(L), rng.randrange(L) // 64 * 64])
    its_list.values[k] = rng.choice(its_list.held_back[k])
    return parts, variant


def unused_value_bits(rng):
    while True:
        parts, variant, its_list = with_list(rng, 1)
        used = len(its_list.values) % 4
        if used:
            its_list.unused = 1 << rng.randrange(2 * used, 8)
            return parts, variant


def several_faults(rng):
    """Faults of different parts of one list, so that their order decides."""
    parts, variant, its_list = with_list(rng, 66)
    g, i, step = any_step(rng, its_list)
    k = rng.choice([64 * g + i, 64 * g + i + 1, rng.randrange(len(its_list.values))])
    h = rng.randrange(len(its_list.size_bytes))
    changes = [
        lambda: its_list.values.__setitem__(k, rng.choice(its_list.held_back[k])),
        lambda: its_list.steps[g].__setitem__(i, rng.choice([b"\0", malformed_varints(rng, step)])),
        lambda: its_list.size_bytes.__setitem__(h, its_list.size_bytes[h] ^ 2),
        lambda: its_list.heads.__setitem__(h + 1, its_list.samples[64 * h + 63]),
        lambda: setattr(parts.records[variant], "tail", b"\0"),
        lambda: setattr(its_list, "unused", 128 if len(its_list.values) % 4 else 0),
    ]
    for change in rng.sample(changes, rng.randint(2, 4)):
        change()
    return parts, variant


def groups_with_steps(its_list):
    """The groups that have a first step and another last one."""
    return [group for group, steps in enumerate(its_list.steps) if len(steps) > 1]


def count_over(N, its_list, group):
    its_list.count = varint(N + 1)


def head_stays(N, its_list, group):
    its_list.heads[group] = its_list.samples[64 * group - 1]


def head_over(N, its_list, group):
    its_list.heads[group] = N


def step_stays(N, its_list, group):
    its_list.steps[group][-1] = b"\0"


def step_over(N, its_list, group):
    its_list.steps[group][0] = varint(N - its_list.samples[64 * group])


def size_off(N, its_list, group):
    its_list.size_bytes[group] ^= 1


# each with its number, and its groups in a list
RULES = [
    (16, count_over, lambda its_list: range(1)),
    (23, head_stays, lambda its_list: range(1, len(its_list.heads))),
    (23, step_stays, groups_with_steps),
    (24, head_over, lambda its_list: range(len(its_list.heads))),
    (24, step_over, groups_with_steps),
    (25, size_off, lambda its_list: range(len(its_list.size_bytes))),
]


def rules_in(its_list):
    """Each rule in each group where it can break: its number, the rule and the group."""
    return [(number, rule, group) for number, rule, groups in RULES for group in groups(its_list)]


def somewhere(rng, its_list, rule):
    """This rule in one of its groups, given as above."""
    return rng.choice([each for each in rules_in(its_list) if each[1] is rule])


def pairs_of_rules(its_list):
    """Each two of them that are not of one head."""
    heads = (head_stays, head_over)
    return [(one, other) for one, other in combinations(rules_in(its_list), 2)
            if one[2] != other[2] or one[1] not in heads or other[1] not in heads]


def break_rules(N, its_list, rules):
    """Break each of these rules, given as above."""
    for _, rule, group in rules:
        rule(N, its_list, group)


def two_rules_broken(rng):
    """Two rules of a list broken, in one group or in two, so that their order decides."""
    parts, variant, its_list = with_list(rng, 65, sizes=[N for N in FOCUS_N if N != 256])
    break_rules(parts.N, its_list, rng.choice(pairs_of_rules(its_list)))
    return parts, variant


LIST_FAULTS = [
    cut_heads_or_values, count_malformed, count_cut, count_over_N, count_off, step_malformed, step_cut, step_zero,
    step_past_N, step_one_off, head_past_N, head_not_rising, size_byte_wrong, value_held_back, unused_value_bits,
    several_faults, several_faults, two_rules_broken,
]
