"""Makes the files of this folder again, with the real program plink2.

    python3 make_real.py [FOLDER]

For each set it writes made-up genotypes as a VCF file, has plink2 turn them into a PGEN file and
export them in its own words, and keeps NAME.pgen and NAME.categories (a line of digits for each
variant: 0 homozygous reference, 1 heterozygous, 2 double alternate, 3 missing), of a set with phases
also NAME.phases (1 for 0|1, 2 for 1|0, 0 for every other call), and NAME.phases_read where document 02
reads others. Of a file that documents 01 and 02 refuse it keeps NAME.refused instead: the number and
the place. What is read otherwise, and what is refused, was worked out by hand. It needs plink2 on the
PATH; the tests need only what it made.
"""

import random
import subprocess
import sys
import tempfile
from pathlib import Path

HERE = Path(__file__).resolve().parent
CALLS = ["0/0", "0/1", "1/1", "./."]
# name, samples, variants, further words for --make-pgen, what else is done
SETS = [
    ("five", 5, 12, [], ""),
    ("herd", 90, 60, [], ""),
    ("two_byte_numbers", 300, 80, [], ""),
    ("long_lists", 2000, 24, [], ""),
    ("plain", 37, 20, ["format=2"], ""),
    ("n255", 255, 16, [], ""),
    ("n256_plain", 256, 16, ["format=2"], ""),
    ("n257", 257, 16, [], ""),
    ("flags", 45, 40, [], "some provisional"),
    ("from_bed", 60, 32, [], "through bed"),
    ("ref_turned", 70, 40, [], "every third turned"),
]
SPARSE = {3: "0/1", -1: "./."}
PHASED = {i: call for i, call in enumerate("0|1 1|0 1|0 0|1 0|1 1|0 0|1 0|1".split())}
# name, samples, variants, the share of heterozygous calls without a phase, whether each row is to have one, whether a sample is added that has none
PHASED_SETS = [
    ("part_phased", 90, 48, 0.2, True, False),
    ("sample_added", 33, 24, 0, False, True),
]
# 40 samples; every heterozygous call phased, eight of them in each row, the first seven of those unswapped
OTHERWISE = [["0|0", "1|1"] * 8 + ["0|1"] * 7 + ["1|0"] + ["0|0", "1|1"] * 8]
OTHERWISE += [["0|1"] + OTHERWISE[0][1:16] + ["0|0"] + OTHERWISE[0][17:]]
# by document 02 the bit that plink2 means for the eighth call is the first call's
OTHERWISE_READ = "0" * 16 + "21111111" + "0" * 16 + "\n" + "2" + "0" * 16 + "1111111" + "0" * 16 + "\n"
# name, samples, calls that are not 0/0, other alleles, words for --vcf, refusal and place by documents 01 and 02
REFUSED = [
    ("n256_list", 256, SPARSE, "C", [], "17 24"),
    ("n65536_list", 65536, SPARSE, "C", [], "17 26"),
    ("n65537", 65537, SPARSE, "C", [], "4 7"),
    ("phased", 16, PHASED, "C", [], "18 26"),
    ("phased_short", 16, {i: "0|1" for i in range(6)}, "C", [], "12 27"),
    ("multiallelic", 16, {1: "0/1", 2: "1/2", 3: "2/2"}, "C,G", [], "8 20"),
    ("dosage", 16, {1: "0/1:0.9", 2: "1/1:1.8"}, "C", ["dosage=DS"], "8 20"),
]


def near_copy(rng, row):
    """A row that differs from another at a few samples."""
    row = list(row)
    for _ in range(max(1, len(row) // 25)):
        row[rng.randrange(len(row))] = rng.randrange(4)
    return row


def rows_of(rng, samples, variants):
    """Rows of every sort: even, two common categories, one common category, copies, inverted copies."""
    rows = []
    for v in range(variants):
        sort = v % 8
        if sort == 0 or not rows:
            row = [rng.randrange(4) for _ in range(samples)]
        elif sort in (1, 2):
            pair = rng.sample(range(4), 2)
            row = [rng.choice(pair) if rng.random() < 0.97 else rng.randrange(4) for _ in range(samples)]
        elif sort in (3, 4):
            common = rng.choice([0, 2, 3])
            row = [common if rng.random() < 0.96 else rng.randrange(4) for _ in range(samples)]
        elif sort in (5, 6):
            row = near_copy(rng, rows[-1])
        else:
            row = [{0: 2, 2: 0}.get(c, c) for c in near_copy(rng, rows[-1])]
        rows.append(row)
    return rows


def vcf_of(rows, samples, alts="C", info=lambda variant: ".", form="GT"):
    """Rows of calls as a VCF file's text; the other alleles are the same for all variants, or a list."""
    lines = ["##fileformat=VCFv4.2", '##INFO=<ID=PR,Number=0,Type=Flag,Description="provisional reference allele">', "##contig=<ID=1,length=1000000>",
             '##FORMAT=<ID=GT,Number=1,Type=String,Description="call">', '##FORMAT=<ID=DS,Number=A,Type=Float,Description="dosage">']
    lines.append("\t".join(["#CHROM", "POS", "ID", "REF", "ALT", "QUAL", "FILTER", "INFO", "FORMAT"] + [f"s{i}" for i in range(samples)]))
    for v, row in enumerate(rows):
        others = alts if isinstance(alts, str) else alts[v]
        lines.append("\t".join(["1", str(100 + v), f"v{v}", "A", others, ".", ".", info(v), form] + row))
    return "\n".join(lines) + "\n"


def calls_of(rows):
    """Categories as calls."""
    return [[CALLS[c] for c in row] for row in rows]


def phased_calls(rng, rows, unphased):
    """Categories as calls, the heterozygous ones phased either way but for a share."""
    calls = ["0|0", "0|1", "1|1", ".|."]
    return [[rng.choice(["0|1", "1|0"]) if c == 1 and rng.random() >= unphased else "0/1" if c == 1 else calls[c] for c in row] for row in rows]


def with_one_unphased(calls):
    """The same calls with the first heterozygous one of each row unphased."""
    later = []
    for row in calls:
        first = next((sample for sample, call in enumerate(row) if call in ("0|1", "1|0")), None)
        later.append([call.replace("|", "/") if sample == first else call for sample, call in enumerate(row)])
    return later


def phases_of(calls):
    """The phases of calls, a line of digits for each row: 1 for 0|1, 2 for 1|0, 0 for every other call."""
    return ["".join({"0|1": "1", "1|0": "2"}.get(call, "0") for call in row) for row in calls]


def calls_in(vcf):
    """The calls in a VCF file, a list for each variant."""
    return [line.split("\t")[9:] for line in vcf.read_text().splitlines() if not line.startswith("#")]


def exported(traw, pvar):
    """The categories that plink2 exported, a line of digits for each variant: how often each sample has the alternate allele."""
    alternate = dict(line.split("\t")[2:5:2] for line in pvar.read_text().splitlines() if not line.startswith("#"))
    lines = []
    for line in traw.read_text().splitlines()[1:]:
        fields = line.split("\t")
        name, counted = fields[1], fields[4]
        as_it_is = counted == alternate[name]
        lines.append("".join("3" if field == "NA" else field if as_it_is else str(2 - int(field)) for field in fields[6:]))
    return "\n".join(lines) + "\n"


def plink2(*words):
    """plink2 with one thread; it must succeed."""
    subprocess.run(["plink2", "--threads", "1", "--memory", "700", *map(str, words)], check=True, stdout=subprocess.DEVNULL)


def make(folder, name, samples, variants, words, way):
    """One set."""
    rows = calls_of(rows_of(random.Random(name), samples, variants))
    with tempfile.TemporaryDirectory() as scratch:
        at = Path(scratch)
        provisional = (lambda v: ["PR", ".", "."][v % 3]) if way == "some provisional" else (lambda v: ".")
        (at / "in.vcf").write_text(vcf_of(rows, samples, info=provisional))
        source = ["--vcf", at / "in.vcf"]
        if way == "through bed":
            plink2(*source, "--make-bed", "--out", at / "bed")
            source = ["--bfile", at / "bed"]
        if way == "every third turned":
            (at / "turned").write_text("".join(f"v{v}\tC\n" for v in range(0, variants, 3)))
            source += ["--ref-allele", "force", at / "turned", "2", "1"]
        plink2(*source, "--make-pgen", *words, "--out", at / "made")
        plink2("--pfile", at / "made", "--export", "Av", "--out", at / "made")
        (folder / f"{name}.pgen").write_bytes((at / "made.pgen").read_bytes())
        (folder / f"{name}.categories").write_text(exported(at / "made.traw", at / "made.pvar"))


def make_refused(folder, name, samples, calls, alts, words, refusal):
    """One file of one variant that documents 01 and 02 refuse."""
    form = "GT:DS" if words else "GT"
    row = ["0/0:0.1" if words else "0/0"] * samples
    for sample, call in calls.items():
        row[sample] = call
    with tempfile.TemporaryDirectory() as scratch:
        at = Path(scratch)
        (at / "in.vcf").write_text(vcf_of([row], samples, alts, form=form))
        plink2("--vcf", at / "in.vcf", *words, "--make-pgen", "--out", at / "made")
        (folder / f"{name}.pgen").write_bytes((at / "made.pgen").read_bytes())
        (folder / f"{name}.refused").write_text(refusal + "\n")


def make_phased(folder, name, calls):
    """One set with phases: its categories and its phases are plink2's own words."""
    with tempfile.TemporaryDirectory() as scratch:
        at = Path(scratch)
        (at / "in.vcf").write_text(vcf_of(calls, len(calls[0])))
        plink2("--vcf", at / "in.vcf", "--make-pgen", "--out", at / "made")
        plink2("--pfile", at / "made", "--export", "Av", "vcf", "--out", at / "made")
        (folder / f"{name}.pgen").write_bytes((at / "made.pgen").read_bytes())
        (folder / f"{name}.categories").write_text(exported(at / "made.traw", at / "made.pvar"))
        (folder / f"{name}.phases").write_text("".join(row + "\n" for row in phases_of(calls_in(at / "made.vcf"))))


def phased_set(name, samples, variants, unphased, one_in_each_row, sample_added):
    """The calls of a set with phases."""
    rng = random.Random(name)
    calls = phased_calls(rng, rows_of(rng, samples, variants), unphased)
    if one_in_each_row:
        calls = with_one_unphased(calls)
    return [row + ["0/1"] for row in calls] if sample_added else calls


if __name__ == "__main__":
    where = Path(sys.argv[1]) if len(sys.argv) > 1 else HERE
    for each in SETS:
        make(where, *each)
    for each in PHASED_SETS:
        make_phased(where, each[0], phased_set(*each))
    make_phased(where, "phased_otherwise", OTHERWISE)
    (where / "phased_otherwise.phases_read").write_text(OTHERWISE_READ)
    for each in REFUSED:
        make_refused(where, *each)
