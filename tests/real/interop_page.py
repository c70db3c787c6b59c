"""What interop.py needs: files for plink2, plink2's own replies, ours, and a tally of what was as the page says."""

import subprocess
import sys
from pathlib import Path

HERE = Path(__file__).resolve().parent
sys.path.insert(0, str(HERE.parent))

from compare import run  # noqa: E402
from make_real import calls_in, exported, phases_of, vcf_of  # noqa: E402
from pgen_cases import FLIP, PHASES, READ, WHOLE_FILE, WRITE, WRITE_PHASED, Case  # noqa: E402
from pgen_parts import FileParts, ListParts, RecordParts, join_file  # noqa: E402
from pgen_reference import listing  # noqa: E402
from probe_cases import input_bytes, line_of, reply_to  # noqa: E402

CRASHED = "crashes"
REFUSES = "refuses"
ADD_SAMPLE = '/^##/ {print; next} /^#/ {print $0, name; next} {print $0, "0/1"}'  # the page's words for awk


class Ours:
    """Whose replies are ours: those of our built programs, or of the independent program in their place."""

    independent = False


def samples_of(file):
    """N, from the header."""
    return int.from_bytes(file[7:11], "little")


def probe_lines(cases):
    """The probe's line for each case."""
    if Ours.independent:
        return [line_of(*reply_to(case)) for case in cases]
    return run("probe", b"".join(map(input_bytes, cases))).decode().splitlines()


def probe(case):
    """The probe's line for a case, in parts."""
    return probe_lines([case])[0].split()


def our_listing(file):
    """What the listing program prints."""
    return listing(file) if Ours.independent else run("pgenlist", file).decode()


def our_check(file):
    """Our whole-file check: the refusal and the place."""
    return " ".join(probe(Case(WHOLE_FILE, first=file, work=samples_of(file)))[:2])


def row_of(line):
    """The categories in a reply to a read, as digits; or the refusal and the place."""
    parts = line.split()
    return parts[3][1::2] if parts[0] == "0" else " ".join(parts[:2])


def our_rows(file, call=READ):
    """All variants' categories, each read alone."""
    N, M = samples_of(file), int.from_bytes(file[3:7], "little")
    return list(map(row_of, probe_lines(Case(call, variant, first=file, output=N, work=N) for variant in range(M))))


def our_phases(file):
    """All variants' phases, each read alone: 0 unphased, 1 unswapped, 2 swapped."""
    return our_rows(file, PHASES)


def our_record(row, kind, code=0, anchor=b""):
    """The bytes of a record that our writer forms."""
    reply = probe(Case(WRITE, kind, code, bytes(map(int, row)), bytes(map(int, anchor)), 131072))
    return bytes.fromhex(reply[4])[:int(reply[2])]


def our_phased_record(row, phases, kind, code=0, anchor=b""):
    """The bytes of a record with its phase track that our writer forms."""
    reply = probe(Case(WRITE_PHASED, kind, code, *(bytes(map(int, part)) for part in (row, anchor)), 131072, third=bytes(map(int, phases))))
    return bytes.fromhex(reply[4])[:int(reply[2])]


def our_flip(file, members):
    """The file after a flip of these variants."""
    M = int.from_bytes(file[3:7], "little")
    chosen = sum(1 << variant for variant in members).to_bytes((M + 7) // 8, "little")
    reply = probe(Case(FLIP, first=file, second=chosen, work=samples_of(file)))
    assert reply[:2] == ["0", "0"], reply[:2]
    return bytes.fromhex(reply[3])


def listed(N, entries, **changes):
    """A list in parts, with parts changed."""
    parts = ListParts(N, entries, [])
    for name, value in changes.items():
        setattr(parts, name, value)
    return parts


def file_of(N, *records, form=0x40):
    """A file of records, each a kind, the bytes before its list, and its list or None."""
    parts = [RecordParts(kind, None, front, its_list) for kind, front, its_list in records]
    return join_file(FileParts(0x10, form, N, parts, [0] * len(parts)))[0]


class Page:
    """The folder of the files, and the tally."""

    def __init__(self, folder, program):
        self.folder = Path(folder)
        self.folder.mkdir(parents=True, exist_ok=True)
        self.program = program
        self.passed = self.failed = 0

    def see(self, fact, what, got, want):
        """One thing that was looked at."""
        same = got == want
        self.passed += same
        self.failed += not same
        print(f"{'as written' if same else 'FAILED'}: {fact} {what}: {got!r}" + ("" if same else f" (the page says {want!r})"), flush=True)

    def plink2(self, *words):
        """plink2's exit status."""
        run_words = [self.program, "--threads", "1", "--memory", "900", *map(str, words)]
        return subprocess.run(run_words, cwd=self.folder, stdout=subprocess.DEVNULL, stderr=subprocess.DEVNULL).returncode

    def made(self, name, *words, how=()):
        """A PGEN file that plink2 makes, and its bytes."""
        assert self.plink2(*words, "--make-pgen", *how, "--out", name) == 0, (name, words)
        return (self.folder / f"{name}.pgen").read_bytes()

    def from_calls(self, name, calls, *words, alts="C", form="GT"):
        """A PGEN file that plink2 makes of rows of calls."""
        (self.folder / f"{name}.vcf").write_text(vcf_of(calls, len(calls[0]), alts, form=form))
        return self.made(name, "--vcf", f"{name}.vcf", *words)

    def put(self, name, file, turned=()):
        """A file for plink2, with its .pvar and .psam; REF and ALT exchanged for some variants."""
        M, N = int.from_bytes(file[3:7], "little"), samples_of(file)
        (self.folder / f"{name}.pgen").write_bytes(file)
        alleles = ["C\tA" if variant in turned else "A\tC" for variant in range(M)]
        lines = ["#CHROM\tPOS\tID\tREF\tALT"] + [f"1\t{100 + v}\tv{v}\t{alleles[v]}" for v in range(M)]
        (self.folder / f"{name}.pvar").write_text("\n".join(lines) + "\n")
        (self.folder / f"{name}.psam").write_text("#IID\tSEX\n" + "".join(f"s{i}\tNA\n" for i in range(N)))
        return file

    def valid(self, name):
        """Whether plink2 --validate passes the file."""
        return "passes" if self.plink2("--pfile", name, "--validate", "--out", f"{name}.validate") == 0 else REFUSES

    def rows(self, name):
        """The rows that plink2 exports, or that it refuses or crashes."""
        status = self.plink2("--pfile", name, "--export", "Av", "--out", name)
        if status:
            return CRASHED if status < 0 or status > 128 else REFUSES
        return exported(self.folder / f"{name}.traw", self.folder / f"{name}.pvar").split()

    def phases(self, name):
        """The phases in plink2's own words, a row for each variant: 1 for 0|1, 2 for 1|0, 0 for every other call; or that it refuses."""
        if self.plink2("--pfile", name, "--export", "vcf", "--out", f"{name}.words"):
            return REFUSES
        return phases_of(calls_in(self.folder / f"{name}.words.vcf"))

    def with_sample(self, name, later, sample="UNPHASED"):
        """A set with a sample added that is heterozygous and unphased in every variant, made by plink2: its bytes."""
        assert self.plink2("--pfile", name, "--export", "vcf", "--out", name) == 0, name
        with open(self.folder / f"{later}.vcf", "wb") as out:
            subprocess.run(["awk", "-v", "OFS=\\t", "-v", f"name={sample}", ADD_SAMPLE, f"{name}.vcf"], cwd=self.folder, stdout=out, check=True)
        return self.made(later, "--vcf", f"{later}.vcf")

    def phases_said(self, name):
        """What plink2 --pgen-info says of a set's phases."""
        assert self.plink2("--pfile", name, "--pgen-info", "--out", f"{name}.info") == 0, name
        lines = (self.folder / f"{name}.info.log").read_text().splitlines()
        return next(line.strip() for line in lines if line.endswith(("hardcalls present", "explicitly phased")))

    def report(self, name, word, ending, source="--pfile"):
        """The columns of a report of plink2, a list for each variant; or that it refuses or crashes."""
        status = self.plink2(source, name, word, "--out", f"{name}.{ending}")
        if status:
            return CRASHED if status < 0 or status > 128 else REFUSES
        return [line.split("\t") for line in (self.folder / f"{name}.{ending}.{ending}").read_text().splitlines()[1:]]

    def counts(self, name, source="--pfile"):
        """How many samples plink2 --geno-counts finds in each category, for each variant."""
        report = self.report(name, "--geno-counts", "gcount", source)
        return report if isinstance(report, str) else [[int(line[i]) for i in (4, 5, 6, 9)] for line in report]


def counted(row):
    """How many samples of a row are in each category."""
    return [row.count(digit) for digit in "0123"]
