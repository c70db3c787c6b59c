"""What the comparison can find, outside the gate: the independent program is made wrong in one place, and the comparison at scale must see it.

    python3 tests/scale_teeth.py [--files 800] [--seed 1] [--only WORDS]

Each line is one wrong rule: how many cases then disagree, and in which file first. The exit status is 1 if one of them is not seen.
"""

import argparse
import re
import shutil
import subprocess
import sys
import tempfile
from pathlib import Path

ROOT = Path(__file__).resolve().parent.parent
HEADER, RECORD, CALLS, ROWS = "pgen_header.py", "pgen_record.py", "pgen_reference.py", "pgen_rows.py"
PACKED, PHASE = "pgen_packed.py", "pgen_phase.py"
CASES_OF_A_FILE = 10
# what is wrong; the file; the text; what stands for it; whether it shows in files of more than one block only
WRONG = [
    ("N = 256 uses two-byte numbers", RECORD, "return 1 if N <= 256", "return 1 if N <= 255", False),
    ("a step of 0 is allowed", RECORD, "if sample <= before:", "if sample < before:", False),
    ("a sample may be N", RECORD, "if sample >= N:", "if sample > N:", False),
    ("the count may be N + 1", RECORD, "if L > N:", "if L > N + 1:", False),
    ("the size byte is not checked", RECORD, "if place - group_start != file[size_place] + 63:", "if False:", False),
    ("64 entries are two groups", RECORD, "width, G = number_width(N), up(L, GROUP)", "width, G = number_width(N), up(L + 1, GROUP)", False),
    ("unused bits are not checked", PACKED, "if used and file[after - 1] >> used:", "if False:", False),
    ("refusal 17 at the list's first value byte", RECORD, "raise Refused(17, value_start + k // 4)", "raise Refused(17, value_start)", False),
    ("23 and 24 of a head at the list's first head", RECORD, "number_place = heads + k // GROUP * width\n", "number_place = heads\n", False),
    ("17 before 24", RECORD, "        if sample >= N:\n", "        if sample >= N and values[k] == 0:\n            raise Refused(17, value_start + k // 4)\n"
     "        if sample >= N:\n", False),
    ("a number not rising is 16", RECORD, "raise Refused(23, number_place)", "raise Refused(16, number_place)", False),
    ("a number not below N is 16", RECORD, "raise Refused(24, number_place)", "raise Refused(16, number_place)", False),
    ("a step that does not rise is 24", RECORD, "raise Refused(23, number_place)", "raise Refused(24 if k % GROUP else 23, number_place)", False),
    ("a head that does not rise is 24", RECORD, "raise Refused(23, number_place)", "raise Refused(23 if k % GROUP else 24, number_place)", False),
    ("a step past N is 23", RECORD, "raise Refused(24, number_place)", "raise Refused(23 if k % GROUP else 24, number_place)", False),
    ("a head past N is 23", RECORD, "raise Refused(24, number_place)", "raise Refused(24 if k % GROUP else 23, number_place)", False),
    ("a size byte is 16", RECORD, "raise Refused(25, size_place)", "raise Refused(16, size_place)", False),
    ("the count is 24", RECORD, "raise Refused(16, start)", "raise Refused(24, start)", False),
    ("25 after the next head", RECORD, "                raise Refused(25, size_place)\n",
     "                if int.from_bytes(file[sizes - width * (G - 1 - k // GROUP):][:width], \"little\") <= before:\n"
     "                    raise Refused(23, sizes - width * (G - 1 - k // GROUP))\n                raise Refused(25, size_place)\n", False),
    ("a padded varint is allowed", RECORD, "padded = i > 0 and byte == 0", "padded = False", False),
    ("a varint has six bytes", RECORD, "for i in range(5):", "for i in range(6):", False),
    ("a varint may be 4,294,967,296", RECORD, "value >= 1 << 32", "value > 1 << 32", False),
    ("a cut varint is 15", RECORD, "        if place + i >= end:\n            raise Refused(12, end)",
     "        if place + i >= end:\n            raise Refused(15, place)", False),
    ("one byte may be left", RECORD, "if place < end:", "if place + 1 < end:", False),
    ("kind 3 inverts the anchor and not the listed values", RECORD, "return Record(exchange(categories) if kind == 3 else categories, 0, (), listed)",
     "return Record(patched(exchange(under), listed) if kind == 3 else categories, 0, (), listed)", False),
    ("code 9 is 1,3", RECORD, "9: (2, 3)}", "9: (1, 3)}", False),
    ("the writer keeps a 1 for listed samples", RECORD, "bits[sample] = listed_bits.get(sample, 0)", "bits[sample] = listed_bits.get(sample, 1)", False),
    ("kind 2 serves as an anchor of reads", HEADER, "while leans(self.types[earlier]):", "while False:", False),
    ("kind 2 at the start of a later block", HEADER, "leaning_first = variant % BLOCK_SIZE == 0", "leaning_first = variant == 0", True),
    ("7 after 8", HEADER, "refuse_lowest(7, header.unused_bits_places(), header.M)\n    header.find_types()\n    refuse_types(header)",
     "header.find_types()\n    refuse_types(header)\n    refuse_lowest(7, header.unused_bits_places(), header.M)", False),
    ("8 names the higher of two types", HEADER, "raise Refused(8, *min(bad))",
     "raise Refused(8, min(bad)[0], max(variant for place, variant in bad if place == min(bad)[0]))", False),
    ("8 names the lower variant of its byte", HEADER, "raise Refused(8, *min(bad))",
     "raise Refused(8, min(bad)[0], min(bad)[1] - (min(bad)[1] % 2 if header.narrow() else 0))", False),
    ("8 names the number within the block", HEADER, "[(self.type_place(variant), variant) for", "[(self.type_place(variant), variant % BLOCK_SIZE) for", True),
    ("8 names M", HEADER, "raise Refused(8, *min(bad))", "raise Refused(8, min(bad)[0], header.M)", False),
    ("4 of N names M", HEADER, "raise Refused(4, 7)", "raise Refused(4, 7, little(file[3:7]))", False),
    ("5 names 0", HEADER, "raise Refused(5, 11, little(file[3:7]))", "raise Refused(5, 11)", False),
    ("6 names 0", HEADER, "raise Refused(6, len(file), header.M)", "raise Refused(6, len(file))", False),
    ("7, and 9 of an offset, name 0", HEADER, "raise Refused(number, min(places), M)", "raise Refused(number, min(places))", False),
    ("9 at the file's end names 0", HEADER, "raise Refused(9, len(file), header.M)", "raise Refused(9, len(file))", False),
    ("an offset of four bytes", HEADER, "if little(self.file[field:field + 8]) !=", "if little(self.file[field:field + 4]) !=", False),
    ("only the first offset is checked", HEADER, "for number, block in enumerate(self.blocks):", "for number, block in enumerate(self.blocks[:1]):", True),
    ("form 8 is allowed", HEADER, "form & 0x0f > (0 if mode == PLAIN_MODE else 7)", "form & 0x0f > (0 if mode == PLAIN_MODE else 8)", False),
    ("M may be 16,777,217", HEADER, "GREATEST_M = 16777216", "GREATEST_M = 16777217", False),
    ("N may be 65,537", HEADER, "GREATEST_N = 65536", "GREATEST_N = 65537", False),
    ("a block is 65,535 variants", HEADER, "BLOCK_SIZE = 65536", "BLOCK_SIZE = 65535", True),
    ("flag bits of a block also where bits 6 and 7 are 2", HEADER, "(up(count, 8) if form >> 6 == 3 else 0)", "(up(count, 8) if form >> 6 >= 2 else 0)", False),
    ("bytes past the records are allowed", HEADER, "if header.starts[-1] != len(file):", "if header.starts[-1] > len(file):", False),
    ("11 before 10", CALLS, "    if any(len(buffer) < header.N for buffer in lent):\n        raise Refused(10, 0, header.M)\n"
     "    if variant >= header.M:\n        raise Refused(11, 0, header.M)\n",
     "    if variant >= header.M:\n        raise Refused(11, 0, header.M)\n"
     "    if any(len(buffer) < header.N for buffer in lent):\n        raise Refused(10, 0, header.M)\n", False),
    ("10 names 0", CALLS, "in lent):\n        raise Refused(10, 0, header.M)", "in lent):\n        raise Refused(10, 0)", False),
    ("10 of a flip names 0", CALLS, "len(work) < header.N:\n            raise Refused(10, 0, header.M)",
     "len(work) < header.N:\n            raise Refused(10, 0)", False),
    ("21 names 0", CALLS, "raise Refused(21, 0, header.M)", "raise Refused(21, 0)", False),
    ("11 names a variant that is not there", CALLS, "raise Refused(11, 0, header.M)", "raise Refused(11, 0, variant)", False),
    ("11 for a sample names M", CALLS, "raise Refused(11, 0, variant)", "raise Refused(11, 0, header.M)", False),
    ("11 for a sample names 0", CALLS, "raise Refused(11, 0, variant)", "raise Refused(11, 0)", False),
    ("a record's fault names the variant asked for, not its anchor", CALLS, "        anchor = read_one(file, header, header.anchor(variant)).categories\n",
     "        with naming(variant):\n            anchor = read_one(file, header, header.anchor(variant)).categories\n", False),
    ("a record's fault names the number within the block", CALLS, "    with naming(variant):\n", "    with naming(variant % 65536):\n", True),
    ("a record's fault names the next variant", CALLS, "    with naming(variant):\n", "    with naming(variant + 1):\n", False),
    ("sample N is looked up", CALLS, "sample >= header.N:", "sample > header.N:", False),
    ("the whole work area is cleared", CALLS, "return bytes(N) + work[N:]", "return bytes(len(work))", False),
    ("a longer flip set is allowed", CALLS, "if len(flip_set) != up(header.M, 8)", "if len(flip_set) < up(header.M, 8)", False),
    ("bits past the last variant are allowed", CALLS, "if header.M % 8 and flip_set[-1] >> header.M % 8:", "if False:", False),
    ("kind 1's bits turn for every code", CALLS, "low > high\n", "True\n", False),
    ("the bits of listed samples stay in a flip", CALLS, "record.bits[sample] ^ turned", "record.bits[sample]", False),
    ("a leaning record's type stays in a flip", CALLS, "kind = kind ^ 1 if member != anchor_member else kind", "kind = kind", False),
    ("the writer looks at the anchor first", CALLS, "for buffer in (categories, anchor):", "for buffer in (anchor, categories):", False),
    ("the writer takes any anchor in other kinds", CALLS, "if len(anchor) != (N if kind in LEANING_KINDS else 0):",
     "if kind in LEANING_KINDS and len(anchor) != N:", False),
    ("a step looks at the header of its file", ROWS,
     "        refuse_state(rows, output, work)\n", "        refuse_state(rows, output, work)\n        header_for(file, [])\n", False),
    ("a step takes a type of 4 bits whole", ROWS, "if header.narrow():", "if False:", False),
    ("a step gives 9 before 8", ROWS, "if not type_allowed(its_type, rows.variant):",
     "if rows.start <= len(file) and not type_allowed(its_type, rows.variant):", False),
    ("a step's record may not end at the file's end", ROWS, "if rows.start + length > len(file):", "if rows.start + length >= len(file):", False),
    ("a step's record starts beyond the file's end", ROWS, "if rows.start + length > len(file):", "if rows.start <= len(file) < rows.start + length:", False),
    ("a refused record is tried again", ROWS, "return *refused.reply(), later, output, work",
     "return *refused.reply(), rows, output, work", False),
    ("the refusal of an anchor is forgotten", ROWS, "if leaning and rows.refusal:", "if False:", False),
    ("the refusal of an anchor stays after the next anchor", ROWS, "later = later.told(*ACCEPTED)", "later = later", False),
    ("a refused leaning record is remembered", ROWS, "        if not leaning:\n            later = later.told(*refused.reply())",
     "        if True:\n            later = later.told(*refused.reply())", False),
    ("a refused record leaves the work area", ROWS, "work = cleared(work, rows.N)", "work = work", False),
    ("a leaning row is an anchor's", ROWS, "    if not leaning:\n        later = later.told(*ACCEPTED)",
     "    if True:\n        later = later.told(*ACCEPTED)", False),
    ("a step names what leans on a refused anchor", ROWS, "return *rows.anchor_reply(), later", "return rows.refusal, rows.place, rows.variant, later", False),
    ("a step's record names the next variant", ROWS, "with naming(rows.variant):", "with naming(later.variant):", False),
    ("a step's 8 names M", ROWS, "raise Refused(8, place, rows.variant)\n    if leans", "raise Refused(8, place, rows.M)\n    if leans", False),
    ("a step's 9 names the M of its file", ROWS, "raise Refused(9, len(file), rows.M)", "raise Refused(9, len(file), little(file[3:7]))", False),
    ("a step's 9 names its variant", ROWS, "raise Refused(9, len(file), rows.M)", "raise Refused(9, len(file), rows.variant)", False),
    ("a step's 10 names its variant", ROWS, "raise Refused(10, 0, rows.M)", "raise Refused(10, 0, rows.variant)", False),
    ("a step's 11 names 0", ROWS, "raise Refused(11, 0, rows.M)", "raise Refused(11, 0)", False),
    ("bit 4 is not allowed", HEADER, "return its_type & ~PHASED <= KIND_BITS", "return its_type <= KIND_BITS", False),
    ("bit 5 is allowed", HEADER, "return its_type & ~PHASED <= KIND_BITS", "return its_type & ~(PHASED | 32) <= KIND_BITS", False),
    ("a type with bit 4 leans on none", HEADER, "return its_type & KIND_BITS in LEANING_KINDS", "return its_type in LEANING_KINDS", False),
    ("H is the anchor's", RECORD, "heterozygous(record.categories))", "heterozygous(anchor or record.categories))", False),
    ("H counts category 2", PHASE, "count(HETEROZYGOUS)", "count(2)", False),
    ("phase bits begin at bit 1 where no presence bits are stored", PHASE, "    stored = bool(file[place] & 1)\n",
     "    stored = bool(file[place] & 1)\n    if not stored:\n        bits, place = read_array(file, place, end, 1, 1 + H)\n"
     "        return Track(stored, bytes(UNSWAPPED + bit for bit in bits[1:])), place\n", False),
    ("a phase bit for each heterozygous call", PHASE, "P = sum(presence)", "P = H", False),
    ("presence bits are stored where none is needed", PHASE, "return Track(UNPHASED in of_calls, of_calls)", "return Track(True, of_calls)", False),
    ("a set phase bit is unswapped", PHASE, "bytes(UNSWAPPED + next(bits) if", "bytes(SWAPPED - next(bits) if", False),
    ("no heterozygous call has no track", PHASE, "    if place >= end:\n",
     "    if H == 0:\n        return Track(False, b\"\"), place\n    if place >= end:\n", False),
    ("a flip leaves phase bits", CALLS, "track = flipped_track(record.track) if member else record.track", "track = record.track", False),
    ("a flip turns the phase bits of what leans on a member", CALLS, "flipped_track(record.track) if member else",
     "flipped_track(record.track) if member or kind in LEANING_KINDS and anchor_member else", False),
    ("categories are read for phases", CALLS, "lambda record: record.phases()", "lambda record: record.categories", False),
    ("22 before 20", CALLS, "        raise Refused(10, 0)\n    for buffer in",
     "        raise Refused(10, 0)\n    if phases and max(phases) > SWAPPED:\n        raise Refused(22, 0)\n    for buffer in", False),
    ("22 after the output's 10", CALLS, "    for index, phase in enumerate(phases or b\"\"):\n", "    for index, phase in enumerate(b\"\"):\n", False),
    ("phase 3 is written", CALLS, "if phase > SWAPPED or phase and", "if phase > 3 or phase and", False),
    ("a phase outside category 1 is written", CALLS, " or phase and categories[index] != HETEROZYGOUS:", ":", False),
    ("longer phases are allowed", CALLS, "    if phases is not None and len(phases) != N:",
     "    phases = phases and phases[:N]\n    if phases is not None and len(phases) != N:", False),
]


def copied(folder):
    """The tests and the built programs in another folder."""
    for name in ("tests", "tools"):
        shutil.copytree(ROOT / name, folder / name)
    shutil.copytree(ROOT / "target" / "bin", folder / "target" / "bin")


def change(path, old, new):
    """One text for another that stands in a file once."""
    text = path.read_text()
    assert text.count(old) == 1, (path.name, old, text.count(old))
    path.write_text(text.replace(old, new))


def seen(name, old, new, blocks, files, seed):
    """What the comparison says with the text changed: how many disagree, and in which file first."""
    with tempfile.TemporaryDirectory() as scratch:
        folder = Path(scratch)
        copied(folder)
        change(folder / "tests" / name, old, new)
        if blocks:
            change(folder / "tests" / "scale_files.py", "MANY_VARIANTS_EVERY = 1000", "MANY_VARIANTS_EVERY = 10")
        words = [sys.executable, str(folder / "tests" / "scale.py"), "--files", str(files), "--seed", str(seed)]
        said = subprocess.run(words, stdout=subprocess.PIPE, text=True).stdout
    first = re.search(r"DISAGREEMENT: seed \d+, file (\d+), (.*)", said)
    count = re.search(r": (\d+) disagreements, \d+ s$", said)
    return int(count.group(1)) if count else 0, first.groups() if first else None


def main():
    """Every wrong rule."""
    parser = argparse.ArgumentParser(description=__doc__.splitlines()[0])
    parser.add_argument("--files", type=int, default=800)
    parser.add_argument("--seed", type=int, default=1)
    parser.add_argument("--only", default="", help="only what has these words")
    words = parser.parse_args()
    chosen = [each for each in WRONG if words.only in each[0]]
    missed = 0
    for what, name, old, new, blocks in chosen:
        count, first = seen(name, old, new, blocks, words.files, words.seed)
        missed += count == 0
        where = f"first in file {first[0]}, {first[1]}" if first else "NOT SEEN"
        print(f"{what}: {count} of {CASES_OF_A_FILE * words.files} cases disagree, {where}", flush=True)
    print(f"{len(chosen) - missed} passed, {missed} failed")
    return 1 if missed else 0


if __name__ == "__main__":
    sys.exit(main())
