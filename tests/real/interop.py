"""Repeats with the real plink2 all that docs/INTEROP.md says of it and of us. It is not part of the tests.

    python3 tests/real/interop.py [--keep FOLDER] [--plink2 PROGRAM] [--independent]

It needs plink2 on the PATH and our programs built (rt ci); with --independent the independent program of the tests answers in place of ours.
Each line is one thing that was looked at, under the page's number of the fact; one that begins with FAILED was not as the page says. With --keep
the files stay in FOLDER, each with its .pvar and .psam, to be tried by hand.
"""

import argparse
import random
import subprocess
import sys
import tempfile

import interop_phases
from interop_faults import AS_EXPORTED, FAULTS, OTHER
from interop_page import Ours, Page, counted, file_of, listed, our_check, our_flip, our_listing, our_record, our_rows
from compare import ROOT
from make_real import calls_of, rows_of
from pgen_header import read_header

SIZES = [1, 2, 3, 4, 5, 7, 8, 9, 16, 33, 63, 64, 65, 100, 127, 128, 129, 254, 255, 257, 258, 300, 1000, 4000, 65534, 65535]


def drawn(N):
    """Rows of every sort, as categories and as calls."""
    rows = rows_of(random.Random(f"interop {N}"), N, 16 if N < 10000 else 5)
    return ["".join(map(str, row)) for row in rows], calls_of(rows)


def written_again(file, rows):
    """The records of a file as our writer forms them, in their own kinds."""
    header = read_header(file)
    bodies, anchor = [], ""
    for variant, row in enumerate(rows):
        kind = header.types[variant]
        code = file[header.starts[variant]] if kind == 1 else 0
        bodies.append(our_record(row, kind, code, anchor if kind in (2, 3) else ""))
        anchor = anchor if kind in (2, 3) else row
    return b"".join(bodies) == file[header.end:]


def agreement(page):
    """1: hard-calls at every N but two."""
    for N in SIZES:
        rows, calls = drawn(N)
        file = page.from_calls(f"n{N}", calls)
        seen = (our_check(file), our_rows(file) == rows == page.rows(f"n{N}"), written_again(file, rows))
        page.see(1, f"N = {N}: whole-file check; rows as exported; our writer gives the same records", seen, ("0 0", True, True))


def refusals_at(page, N, files):
    """The refusals of the rows of some files of N samples, and how many rows are read as other categories than plink2's."""
    found, misread = set(), 0
    for number in range(files):
        rows = rows_of(random.Random(f"width {N} {number}"), N, 16 if N < 1000 else 8)
        file = page.from_calls("width", calls_of(rows))
        for row, ours in zip(rows, our_rows(file)):
            found.add(ours.split()[0] if " " in ours else "read")
            misread += " " not in ours and ours != "".join(map(str, row))
    return sorted(found), misread


def number_width(page):
    """2: N of exactly 256 and 65,536."""
    for N, record, refusal in ((255, "02030dfb01", "0 0"), (256, "0203000dfc01", "17 24"), (257, "0203000dfd01", "0 0"),
                               (65535, "0203000dfbff03", "0 0"), (65536, "020300000dfcff03", "17 26")):
        row = [["0/0"] * N]
        row[0][3], row[0][N - 1] = "0/1", "./."
        file = page.from_calls(f"list{N}", row)
        page.see(2, f"N = {N}: plink2's record; our whole-file check", (file[-len(record) // 2:].hex(), our_check(file)), (record, refusal))
        plain = page.made(f"plain{N}", "--pfile", f"list{N}", how=["format=2"])
        page.put("plain_flipped", our_flip(plain, [0]))
        same = [our_rows(plain) == page.rows(f"list{N}"), page.rows("plain_flipped") == ["2" * 3 + "1" + "2" * (N - 5) + "3"]]
        page.see(2, f"N = {N} with format=2: our row is plink2's; flipped by us, plink2's row is the flipped one", same, [True, True])
    page.see(2, "N = 256, ten files: what our reads give; rows misread", refusals_at(page, 256, 10), (["13", "17", "18", "23", "24", "read"], 0))
    page.see(2, "N = 65,536, three files: the same", refusals_at(page, 65536, 3), (["17", "18", "24", "read"], 0))
    row = ["1/1"] * 256
    row[3] = row[4] = row[6] = "0/1"
    row[9] = "./."
    file = page.from_calls("two_ways", [row])
    ours, theirs = our_rows(file)[0], page.rows("two_ways")[0]
    outside = [[(sample, int(digit)) for sample, digit in enumerate(row) if digit != "2"] for row in (ours, theirs)]
    page.see(2, "a file by plink2 that is read otherwise: kind, record, our check, --validate",
             (file[20], file[22:].hex(" "), our_check(file), page.valid("two_ways")), (6, "04 03 00 d5 01 02 03", "0 0", "passes"))
    page.see(2, "the same: samples outside category 2, ours and plink2's", outside,
             [[(3, 0), (216, 0), (218, 0), (221, 0)], [(3, 1), (4, 1), (6, 1), (9, 3)]])
    page.see(2, "our writer's record of our reading", our_record(ours, 6) == file[22:], True)
    file = page.put("ours256", file_of(256, (4, our_record("1" * 3 + "0" * 253, 4), None)))
    page.see(2, "a list of our writer, N = 256: our check, plink2 --validate, --export", (our_check(file), page.valid("ours256"), page.rows("ours256")),
             ("0 0", "refuses", "refuses"))


def long_lists(page):
    """3: lists longer than N/8."""
    page.put("a", (ROOT / "examples" / "a.pgen").read_bytes())
    page.see(3, "file A: plink2 --validate, --export", (page.valid("a"), page.rows("a")), ("refuses", "refuses"))
    for N, kind, limit in ((100, 2, 12), (100, 3, 12), (100, 4, 12), (103, 6, 12), (104, 7, 13), (100, 1, 12), (112, 1, 14)):
        front = b"\1" + bytes((N + 7) // 8) if kind == 1 else b""
        for L in (limit, limit + 1):
            record = (kind, front, listed(N, [(2 * k, 1 if kind != 1 else 2) for k in range(L)]))
            before = [(0, bytes((N + 3) // 4), None)] if kind in (2, 3) else []
            file = page.put(f"list{kind}_{L}", file_of(N, *before, record))
            rows = page.rows(f"list{kind}_{L}")
            seen = (our_check(file), rows if isinstance(rows, str) else "reads")
            page.see(3, f"N = {N}, kind {kind}, L = {L}: our check, --export", seen, ("0 0", "reads" if L == limit else "refuses"))
    for N, limit in ((32, 1), (96, 5), (100, 5), (112, 6)):
        for L in (limit, limit + 1):
            page.put("pair", file_of(N, (1, b"\1" + bytes((N + 7) // 8), listed(N, [(2 * k, 2) for k in range(L)]))))
            page.see(3, f"N = {N}, kind 1, L = {L}: plink2 --validate", page.valid("pair"), "passes" if L == limit else "refuses")


def counted_flips(page):
    """4: a flipped kind 1 record, counted by plink2."""
    row = "0" * 50 + "1" * 48 + "32"
    file = page.put("unflipped", file_of(100, (1, our_record(row, 1, 1), None)))
    page.see(4, "before: plink2 --geno-counts", page.counts("unflipped"), [counted(row)])
    flipped = page.put("flipped", our_flip(file, [0]))
    turned = row.translate(str.maketrans("02", "20"))
    page.see(4, "after: our check, our row, plink2 --export, --validate",
             (our_check(flipped), our_rows(flipped)[0] == turned, page.rows("flipped") == [turned], page.valid("flipped")), ("0 0", True, True, "passes"))
    page.see(4, "after: right counts, plink2 --geno-counts", (counted(turned), page.counts("flipped")), ([1, 48, 50, 1], [[1, 46, 52, 1]]))
    page.see(4, "after: plink2 --freq", page.report("flipped", "--freq", "afreq")[0][4], "0.757576")
    page.see(4, "after: plink2 --hardy", page.report("flipped", "--hardy", "hardy")[0][4:7], ["1", "46", "52"])
    page.made("repaired", "--pfile", "flipped")
    page.see(4, "after plink2 --make-pgen: rows, counts", (page.rows("repaired") == [turned], page.counts("repaired")), (True, [counted(turned)]))
    kept = [page.plink2("--pfile", name, "--maf", "0.25", "--write-snplist", "--out", "kept") == 0 for name in ("unflipped", "flipped", "repaired")]
    page.see(4, "plink2 --maf 0.25 keeps the variant: before, after, after --make-pgen", kept, [True, False, True])
    page.plink2("--pfile", "flipped", "--make-bed", "--out", "bed")
    page.see(4, "after plink2 --make-bed: counts", page.counts("bed", "--bfile"), [counted(turned)])
    for code, pair, wrong in ((1, "01", True), (2, "02", True), (3, "03", False), (5, "12", True), (6, "13", False), (9, "23", False)):
        others = [digit for digit in "0123" if digit not in pair]
        row = pair[0] * 50 + pair[1] * 48 + "".join(others)
        flipped = page.put(f"code{code}", our_flip(file_of(100, (1, our_record(row, 1, code), None)), [0]))
        page.see(4, f"pair code {code} flipped: miscounted", page.counts(f"code{code}") != [counted(our_rows(flipped)[0])], wrong)


def tracks(page):
    """6: further alleles, dosages."""
    file = page.from_calls("alleles", [["0/0", "0/1", "1/2", "2/2"] * 4], alts="C,G")
    page.see(6, "three alleles: form, type, our check", (hex(file[11]), hex(file[20]), our_check(file)), ("0x40", "0x8", "8 20"))
    file = page.from_calls("first_alleles", [["0/0", "0/1", "1/1", "./."] * 4], alts="C,G")
    page.see(6, "three alleles of which two occur: our row", our_rows(file)[0], "0123" * 4)
    page.from_calls("some_alleles", [["0/0", "0/1", "1/2", "2/2"] * 4, ["0/0", "0/1", "1/1", "./."] * 4], alts=["C,G", "C"])
    page.see(6, "after --max-alleles 2: our rows", our_rows(page.made("two_alleles", "--pfile", "some_alleles", "--max-alleles", 2)), ["0123" * 4])
    dosed = [["0/0:0.1", "0/1:1.05", "1/1:1.9", "./.:1.4"] * 4]
    file = page.from_calls("dosage", dosed, "dosage=DS", form="GT:DS")
    page.see(6, "dosages: type, our check", (hex(file[20]), our_check(file)), ("0x40", "8 20"))
    file = page.made("undosed", "--pfile", "dosage", how=["erase-dosage"])
    page.see(6, "after erase-dosage: our row", our_rows(file)[0], "0123" * 4)
    dosed = [["0|0:0.1", "0|1:1.05", "1|1:1.9", "1|0:1.1"] * 4]
    file = page.from_calls("phased_dosage", dosed, "dosage=DS", form="GT:DS")
    page.see(6, "phases and dosages: type, our check", (hex(file[20]), our_check(file)), ("0x50", "8 20"))


def strictness(page):
    """7: what plink2 lets pass and we refuse."""
    for number, (what, file, *want) in enumerate(FAULTS):
        name = f"fault{number}"
        page.put(name, file)
        rows, counts = page.rows(name), page.counts(name)
        reads = rows if isinstance(rows, str) else "reads"
        same = counts if isinstance(counts, str) else "counts" if reads != "reads" else AS_EXPORTED if counts == [counted(row) for row in rows] else OTHER
        page.see(7, f"{what} ({name}): our check, --validate, --export, --geno-counts", [our_check(file), page.valid(name), reads, same], want)
    passed = []
    for N in [N for N in range(17, 130) if N % 8]:
        bits = bytearray(b"\x55" * ((N + 7) // 8))
        bits[-1] = bits[-1] & ((1 << N % 8) - 1) | 0x80
        page.put("unused", file_of(N, (1, b"\1" + bytes(bits) + b"\0", None)))
        if page.valid("unused") == "passes":
            passed.append(N % 32)
    page.see(7, "unused bits in kind 1, N from 17 to 129: --validate passes where N mod 32 is", sorted(set(passed)), [25, 26, 27, 28, 29, 30, 31])


def forms(page):
    """8: forms, blocks, pair codes."""
    provisional = ["--dummy", 90, 300, "0.05", "--seed", 1, "--make-bed", "--out", "old"]
    long_rows = ["--dummy", 2000, 40, "0.05", "--seed", 1, "--make-bed", "--out", "old_long"]
    page.plink2(*provisional)
    page.plink2(*long_rows)
    for name, words, form in (("new", ["--dummy", 90, 300, "0.05", "--seed", 1], "0x40"), ("new_long", ["--dummy", 2000, 40, "0.05", "--seed", 1], "0x41"),
                              ("old_pgen", ["--bfile", "old"], "0x80"), ("old_long_pgen", ["--bfile", "old_long"], "0x81")):
        file = page.made(name, *words)
        page.see(8, f"{' '.join(map(str, words))}: form, our check", (hex(file[11]), our_check(file)), (form, "0 0"))
    file = page.made("blocks", "--dummy", 9, 140000, "0.02", "--seed", 1)
    header = read_header(file)
    starts = {header.types[block.first] for block in header.blocks}
    page.see(8, "--dummy 9 140000: blocks, kinds 2 or 3 at a block's start, our check",
             (len(header.blocks), bool(starts & {2, 3}), our_check(file)), (3, False, "0 0"))
    codes = set()
    for N in (90, 257):
        file = page.from_calls("codes", calls_of(rows_of(random.Random(f"codes {N}"), N, 80)))
        header = read_header(file)
        codes |= {file[header.starts[v]] for v in range(header.M) if header.types[v] == 1}
    page.see(8, "pair codes that occur", sorted(codes), [1, 2, 3, 5, 6, 9])


def letters(page, name):
    """The calls of a set as letters, from plink2's VCF export."""
    page.plink2("--pfile", name, "--export", "vcf", "--out", name)
    table = []
    for line in (page.folder / f"{name}.vcf").read_text().splitlines():
        if not line.startswith("#"):
            fields = line.split("\t")
            alleles = {"0": fields[3], "1": fields[4], ".": "."}
            table.append([sorted(alleles[part] for part in call.split("/")) for call in fields[9:]])
    return table


def turned_references(page):
    """9: --ref-allele force and our flip."""
    rows, calls = drawn(90)
    file = page.from_calls("herd", calls)
    third = range(0, len(rows), 3)
    (page.folder / "turned.txt").write_text("".join(f"v{v}\tC\n" for v in third))
    page.made("forced", "--pfile", "herd", "--ref-allele", "force", "turned.txt", 2, 1)
    flipped = page.put("turned", our_flip(file, third), turned=third)
    page.see(9, "our flip reads as plink2 --ref-allele force", our_rows(flipped) == page.rows("forced"), True)
    page.see(9, "REF and ALT exchanged in .pvar too: the same letters for every animal", letters(page, "turned") == letters(page, "herd"), True)
    page.put("half", flipped)
    page.see(9, ".pvar left as it was: the same letters", letters(page, "half") == letters(page, "herd"), False)


def limits(page):
    """10: what is too large, and other files."""
    row = [["0/0"] * 65537]
    file = page.from_calls("n65537", row)
    page.see(10, "N = 65,537: plink2 reads it; our listing", (page.rows("n65537") == ["0" * 65537], our_listing(file)), (True, "refused 4 7\n"))
    page.plink2("--dummy", 90, 300, "0.05", "--seed", 1, "--make-bed", "--out", "bed")
    page.see(10, ".bed file: our listing", our_listing((page.folder / "bed.bed").read_bytes()), "refused 3 2\n")
    file = page.made("large", "--dummy", 90, 5000, "0.05", "--seed", 1)
    page.see(10, "--dummy 90 5000: our check, over 65,536 bytes, our listing",
             (our_check(file), len(file) > 65536, our_listing(file)), ("0 0", True, "too large\n"))


def main():
    """Every fact."""
    parser = argparse.ArgumentParser(description=__doc__.splitlines()[0])
    parser.add_argument("--keep", help="a folder for the files")
    parser.add_argument("--plink2", default="plink2", help="the program")
    parser.add_argument("--independent", action="store_true", help="the independent program's replies in place of ours")
    words = parser.parse_args()
    Ours.independent = words.independent
    with tempfile.TemporaryDirectory() as scratch:
        page = Page(words.keep or scratch, words.plink2)
        print(subprocess.run([words.plink2, "--version"], capture_output=True, text=True, check=True).stdout.strip())
        for fact in (agreement, number_width, long_lists, counted_flips, tracks, strictness, forms, turned_references, limits, *interop_phases.FACTS):
            fact(page)
    print(f"{page.passed} passed, {page.failed} failed")
    return 1 if page.failed else 0


if __name__ == "__main__":
    sys.exit(main())
