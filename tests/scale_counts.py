"""What the comparison at scale reached: refusals by call, variants named, kinds, modes, forms and widths."""

from collections import Counter

from pgen_cases import FLIP, LOOKUP, PHASES, READ, ROWS, WRITE, WRITE_PHASED
from pgen_generate import FORMS
from pgen_header import BLOCK_MODE, BLOCK_SIZE, KIND_BITS, LEANING_KINDS, PHASED, Header, Refused, leans, read_header, type_allowed
from pgen_record import RECORD_REFUSALS
from probe_cases import CALLS, POSSIBLE

KINDS = [0, 1, 2, 3, 4, 6, 7]
REFUSALS = range(26)
MEMBERSHIPS = [(member, anchor_member) for member in (False, True) for anchor_member in (False, True)]
LIMITS_OF_N = (1, 4, 5, 63, 64, 65, 255, 256, 257, 300, 65535, 65536)
LIST_REFUSALS = [number for number in RECORD_REFUSALS if number != 14]
TRACK_REFUSALS = [12, 13, 18]
NAMED_HALVES = ("lower of two", "lower alone", "higher alone")
OF_LOOKUPS = ("the sample's variant", "M")
USES = {"read": "reads and lookups accepted", "refused": "refused in a record", "flipped": "records flipped", "written": "records written",
        "row": "rows of walks", "phases": "phases of a track read", "track flipped": "tracks flipped", "phased": "phased records written",
        "phased row": "rows of walks with a track"}


def half_of(file, head, variant):
    """Of a byte with a wrong type of 4 bits, where a header that begins so has it: which half is named, and whether the other is wrong too; else nothing."""
    header = Header(head)
    if header.mode != BLOCK_MODE or not header.narrow() or variant + 1 - variant % 2 >= header.M:
        return None
    types = [file[header.type_place(variant)] >> 4 * half & 15 for half in (0, 1)]
    wrong = [not type_allowed(its_type, variant - variant % 2 + half) for half, its_type in enumerate(types)]
    return NAMED_HALVES[0] if all(wrong) and variant % 2 == 0 else NAMED_HALVES[1 + variant % 2] if not all(wrong) else None


class Counts:
    """Counts under names, each with a key."""

    def __init__(self):
        self.of = Counter()
        self.header = None

    def add(self, other):
        """Another's counts too."""
        self.of.update(other.of)

    def file(self, damage, file):
        """A file, of which calls follow."""
        self.of["files"] += 1
        self.of["damage", damage.split(":")[0]] += 1
        self.of["fault", damage] += 1
        try:
            self.header = read_header(file)
        except Refused as refused:
            self.header = None
            self.of["header refused", refused.number] += 1
            if refused.number == 8:
                self.of["type named", half_of(file, file, refused.variant)] += 1
            return
        header = self.header
        self.of["mode and form", header.mode, header.form] += 1
        self.of["number width", 1 if header.N <= 256 else 2] += 1
        self.of["N", header.N] += 1
        self.of["blocks", len(header.blocks)] += 1
        if header.M >= BLOCK_SIZE - 1:
            self.of["M", header.M] += 1

    def call(self, case, replies):
        """A call with its refusal number and the variant that it names; of rows, the start's and each step's."""
        for call, number, _, variant in replies:
            self.of["call", call, number] += 1
            if variant is not None and variant >= BLOCK_SIZE and (number == 8 or number in RECORD_REFUSALS):
                self.of["named in a later block", number] += 1
        _, number, _, variant = replies[0]
        if case.call in (WRITE, WRITE_PHASED):
            if number == 0:
                self.of["kind", "written" if case.call == WRITE else "phased", case.x] += 1
        elif self.header is not None and number is not None and number not in range(1, 12):
            self.kinds(case, number, variant)
            if case.call == ROWS and not case.second and case.first == self.header.file:
                self.walked([number for _, number, _, _ in replies[1:]])
        elif case.call == LOOKUP and number == 11:
            self.of["11 names", OF_LOOKUPS[variant == self.header.M]] += 1

    def walked(self, numbers):
        """The kinds of the rows of a walk, and how often a refused anchor's number was given again for a record that leans on it."""
        anchor = 0
        for its_type, number in zip(self.header.types, numbers):
            if number in range(1, 12):
                return
            self.of["kind", "phased row" if its_type & PHASED else "row", its_type & KIND_BITS] += number == 0
            if not leans(its_type):
                anchor = number
            elif anchor:
                self.of["again", anchor] += 1

    def kinds(self, case, number, variant):
        """The kinds that a call concerned: of the variant asked for, or of all that were flipped; and whether that variant was named, or its anchor."""
        types = self.header.types
        if case.call in (READ, LOOKUP, PHASES):
            kind, phased = types[case.x] & KIND_BITS, types[case.x] & PHASED
            use = "phases" if phased and case.call == PHASES else "read"
            self.of["kind", "refused" if number else use, kind] += 1
            self.of["kind and refusal", kind, number] += 1
            self.of["kind and refusal with a track", kind, number] += bool(phased)
            self.of["named", "itself" if variant == case.x else "its anchor", number] += number > 0
        elif case.call == FLIP and number == 0:
            self.flipped(types, case.second)

    def flipped(self, types, flip_set):
        """The kinds of the members, and of leaning records whether they and their anchors are members."""
        anchor_member = False
        for variant, its_type in enumerate(types):
            kind, phased = its_type & KIND_BITS, its_type & PHASED
            member = bool(flip_set[variant // 8] >> variant % 8 & 1)
            self.of["kind", "flipped", kind] += member
            self.of["kind", "track flipped", kind] += bool(member and phased)
            if kind in LEANING_KINDS:
                self.of["leaning", kind, member, anchor_member] += 1
                self.of["leaning with a track", kind, member, anchor_member] += bool(phased)
            else:
                anchor_member = member

    def listing(self, text):
        """A listing."""
        said = next((words for words in ("refused", "too large") if text.startswith(words)), "accepted")
        self.of["listing", said] += 1

    def calls(self):
        """How many calls."""
        return sum(count for key, count in self.of.items() if key[0] == "call")

    def listings(self):
        """How many listings."""
        return sum(count for key, count in self.of.items() if key[0] == "listing")

    def missing(self):
        """What could be reached and was not."""
        for call, numbers in POSSIBLE.items():
            for number in [0] + numbers:
                if not self.of["call", call, number]:
                    yield f"{CALLS[call]}, refusal {number}"
        for key in self.wanted():
            if not self.of[key]:
                yield " ".join(map(str, key))

    def wanted(self):
        """What must be reached beside the refusals of each call."""
        for kind in KINDS:
            yield from (("kind", what, kind) for what in USES)
            its_own = [12, 13, 18] if kind == 0 else LIST_REFUSALS + [14] * (kind == 1)
            yield from (("kind and refusal", kind, number) for number in its_own)
            yield from (("kind and refusal with a track", kind, number) for number in TRACK_REFUSALS)
        for kind in LEANING_KINDS:
            yield from ((name, kind, *members) for name in ("leaning", "leaning with a track") for members in MEMBERSHIPS)
        for mode, forms in FORMS.items():
            yield from (("mode and form", mode, form) for form in forms)
        yield from (("again", number) for number in RECORD_REFUSALS)
        yield from (("named", whose, number) for whose in ("itself", "its anchor") for number in RECORD_REFUSALS)
        yield from (("type named", half) for half in NAMED_HALVES)
        yield from (("11 names", what) for what in OF_LOOKUPS)
        yield from (("listing", what) for what in ("accepted", "refused", "too large"))

    def table(self, distinct):
        """The summary."""
        return "\n".join([
            f"files: {self.of['files']}, of which {distinct} are distinct", self.damages(), self.refusals(), self.names(), self.record_kinds(),
            self.kind_refusals(), self.leaning(), self.forms(), self.sizes()])

    def damages(self):
        """Files by their damage."""
        lines = [f"  {name}: {count}" for (_, name), count in self.under("damage")]
        faults = "; ".join(f"{name} {count}" for (_, name), count in self.under("fault") if name.startswith(("record:", "track:", "header:")))
        return "\n".join(["files by damage:", *lines, f"  each fault: {faults}"])

    def refusals(self):
        """A row for each refusal number, a column for each call."""
        lines = ["| No. | " + " | ".join(CALLS[call] for call in CALLS) + " | all |", "|---" * (len(CALLS) + 2) + "|"]
        for number in REFUSALS:
            row = [self.of["call", call, number] for call in CALLS]
            cells = [str(count) if number in [0] + POSSIBLE[call] else "" for call, count in zip(CALLS, row)]
            lines.append(f"| {number} | " + " | ".join(cells) + f" | {sum(row)} |")
        row = [sum(self.of["call", call, number] for number in REFUSALS) for call in CALLS]
        lines.append("| all | " + " | ".join(map(str, row)) + f" | {sum(row)} |")
        return "\n".join(["calls by refusal number:"] + lines)

    def names(self):
        """The variants that refusals named: of reads and lookups the one asked for or its anchor, of a wrong type of 4 bits which half of its byte."""
        lines = ["| Named | " + " | ".join(map(str, RECORD_REFUSALS)) + " |", "|---" * (len(RECORD_REFUSALS) + 1) + "|"]
        for whose in ("itself", "its anchor"):
            lines.append(f"| {whose} | " + " | ".join(str(self.of["named", whose, number]) for number in RECORD_REFUSALS) + " |")
        halves = "; ".join(f"{half}: {self.of['type named', half]}" for half in NAMED_HALVES)
        return "\n".join(["variants named by reads and lookups that a record refuses:", *lines, f"files with a wrong type of 4 bits: {halves}",
                          f"11 of lookups names: {self.line('11 names')}", f"named in a later block, by number: {self.line('named in a later block')}"])

    def record_kinds(self):
        """A row for each kind: reads and lookups accepted and refused, records flipped and written, rows of walks; the same of tracks."""
        lines = ["| Kind | " + " | ".join(USES.values()) + " |", "|---" * (len(USES) + 1) + "|"]
        for kind in KINDS:
            lines.append(f"| {kind} | " + " | ".join(str(self.of["kind", name, kind]) for name in USES) + " |")
        return "\n".join(["kinds:"] + lines + [f"an anchor's refusal given again in a walk: {self.line('again')}"])

    def kind_refusals(self):
        """A row for each kind, a column for each refusal of a record (of the variant asked for or of its anchor)."""
        numbers = RECORD_REFUSALS
        lines = ["| Kind | " + " | ".join(map(str, numbers)) + " |", "|---" * (len(numbers) + 1) + "|"]
        for kind in KINDS:
            lines.append(f"| {kind} | " + " | ".join(str(self.of["kind and refusal", kind, number]) for number in numbers) + " |")
        for kind in KINDS:
            lines.append(f"| {kind} with a track | " + " | ".join(str(self.of["kind and refusal with a track", kind, number]) for number in numbers) + " |")
        return "\n".join(["refusals of reads and lookups by the kind asked for:"] + lines)

    def leaning(self):
        """Leaning records of accepted flips by kind, their own membership and their anchor's."""
        lines = ["| Kind | neither | anchor only | itself only | both |", "|---|---|---|---|---|"]
        for name, words in (("leaning", ""), ("leaning with a track", " with a track")):
            for kind in LEANING_KINDS:
                lines.append(f"| {kind}{words} | " + " | ".join(str(self.of[name, kind, *members]) for members in MEMBERSHIPS) + " |")
        return "\n".join(["leaning records of accepted flips, by who is a member:"] + lines)

    def forms(self):
        """Files whose header is accepted, by mode and form."""
        lines = ["| Mode, bits 6 and 7 | " + " | ".join(f"bits 0 to 3: {low}" for low in range(8)) + " |", "|---" * 9 + "|"]
        for mode, forms in FORMS.items():
            for high in range(4):
                cells = [str(self.of["mode and form", mode, form]) if form in forms else "" for form in range(high << 6, (high << 6) + 8)]
                lines.append(f"| 0x{mode:02x}, {high} | " + " | ".join(cells) + " |")
        return "\n".join(["files with an accepted header, by mode and form:"] + lines)

    def sizes(self):
        """Files whose header is accepted: bytes of a sample number, N and M at the limits, blocks."""
        limits = "; ".join(f"{N}: {self.of['N', N]}" for N in LIMITS_OF_N)
        return "\n".join(["files with an accepted header:", f"  by bytes of a sample number: {self.line('number width')}", f"  by N: {limits}",
                          f"  by M of 65,535 and more: {self.line('M')}", f"  by number of blocks (0 in mode 0x02): {self.line('blocks')}",
                          f"listings: {self.line('listing')}"])

    def line(self, name):
        """The counts under a name in one line."""
        return "; ".join(f"{key[1]}: {count}" for key, count in self.under(name))

    def under(self, name):
        """The counts under a name, in order."""
        return sorted((key, count) for key, count in self.of.items() if key[0] == name)
