"""The facts of docs/INTEROP.md about phased calls: interop.py looks at them with the others."""

import random
from collections import Counter

from interop_page import file_of, our_check, our_flip, our_phased_record, our_phases, our_record, our_rows
from make_real import OTHERWISE, phased_calls, phases_of, rows_of, with_one_unphased
from pgen_header import KIND_BITS, PHASED, read_header

SIZES = [1, 2, 3, 4, 8, 9, 16, 17, 33, 64, 65, 100, 255, 257, 1000]
ACCEPTED = "0 0"
SORTS = ["18", "12", "same", "other"]


def drawn(name, N, unphased):
    """Rows of every sort as calls with phases, so large a share of them unphased."""
    rng = random.Random(f"phases {name}")
    return phased_calls(rng, rows_of(rng, N, 16), unphased)


def has_phases(file):
    """Whether a record of the file has a phase track."""
    return any(its_type & PHASED for its_type in read_header(file).types)


def written_again(file, rows, phases):
    """Whether our writer gives the file's records, each in its own kind, and with a phase track where it has one."""
    header = read_header(file)
    bodies, anchor = [], ""
    for variant, row in enumerate(rows):
        its_type = header.types[variant]
        kind = its_type & KIND_BITS
        code = file[header.starts[variant]] if kind == 1 else 0
        under = anchor if kind in (2, 3) else ""
        bodies.append(our_phased_record(row, phases[variant], kind, code, under) if its_type & PHASED else our_record(row, kind, code, under))
        anchor = anchor if kind in (2, 3) else row
    return b"".join(bodies) == file[header.end:]


def some_unphased(page):
    """5: records with an unphased heterozygous call agree."""
    types = set()
    for N in SIZES:
        name = f"part{N}"
        calls = with_one_unphased(drawn(N, N, 0.2))
        file = page.from_calls(name, calls)
        rows, phases = our_rows(file), our_phases(file)
        types |= set(read_header(file).types)
        seen = our_check(file), rows == page.rows(name), phases == page.phases(name) == phases_of(calls), written_again(file, rows, phases)
        page.see(5, f"N = {N}, some unphased: our check; categories and phases as exported; our writer gives the same records", seen,
                 (ACCEPTED, True, True, True))
    file = page.from_calls("track", [["0/1", "0|1", "1|0"] + ["0|1"] * 5 + ["0|0"] * 4])
    page.see(5, "eight heterozygous calls, the first unphased, the third swapped: form, type, track, our phases",
             (hex(file[11]), hex(file[20]), file[25:].hex(" "), our_phases(file)), ("0x44", "0x10", "fd 01 02", ["012111110000"]))
    page.see(5, "types with phases that occurred", sorted(hex(number) for number in types if number & PHASED),
             ["0x10", "0x11", "0x12", "0x13", "0x14", "0x16", "0x17"])
    unphased = [[call.replace("|", "/") for call in row] for row in drawn("none", 33, 0)]
    file = page.from_calls("none_phased", unphased)
    page.see(5, "no call phased: types with phases, our check", (has_phases(file), our_check(file)), (False, ACCEPTED))
    file = page.from_calls("no_hets", [["0|0"] * 4 + ["1|1"] * 4])
    page.see(5, "no heterozygous call: form and type", (hex(file[11]), hex(file[20])), ("0x40", "0x0"))


def one_record(page, name, swaps):
    """The file of one variant whose heterozygous calls, one for each of `swaps`, are all phased; four samples have none."""
    return page.from_calls(name, [["1|0" if swap else "0|1" for swap in swaps] + ["0|0"] * 4])


def reply_by_rule(file, swaps):
    """What document 02 gives for such a file, whose track is its last bytes: 18, 12, or each call the phase of the call seven later."""
    if any(swaps[:7]):
        return f"18 {len(file) - (1 + len(swaps) // 8)}"
    if len(swaps) % 8:
        return f"12 {len(file)}"
    return "".join(str(1 + swap) for swap in swaps[7:] + [0] * 7) + "0000"


def swaps_tried(H):
    """Which of H calls are swapped: none, one alone, all; drawn; drawn with the first seven unswapped."""
    rng = random.Random(f"swaps {H}")
    alone = [[int(call == swapped) for call in range(H)] for swapped in sorted({0, min(6, H - 1), H - 1})]
    free = [[rng.randrange(2) for _ in range(H)] for _ in range(4)]
    return [[0] * H, [1] * H] + alone + free + [[0] * min(7, H) + swaps[7:] for swaps in free]


def sort_of(ours, theirs):
    """Our reply beside plink2's phases, in a word."""
    return ours.split()[0] if " " in ours else "same" if ours == theirs else "other"


def row_swaps(row):
    """The samples of a row of phases that are swapped."""
    return [sample for sample, phase in enumerate(row) if phase == "2"]


def all_phased(page):
    """11: records in which every heterozygous call is phased differ."""
    for swaps, track, ours in (([0, 1, 1, 0, 0, 1, 0, 0], "4c 00", "18 25"), ([0] * 6, "00", "12 26"), ([0] * 7 + [1], "00 01", "211111110000"),
                               ([0] * 8, "00 00", "111111110000")):
        file = one_record(page, "all", swaps)
        refused = " " in ours
        page.see(11, f"all phased, swaps {swaps}: type, track, our check", (hex(file[20]), file[25:].hex(" "), our_check(file)),
                 ("0x10", track, ours if refused else ACCEPTED))
        page.see(11, "the same: our categories, our phases, plink2's", (our_rows(file)[0], our_phases(file)[0], page.phases("all")[0]),
                 (ours if refused else "1" * len(swaps) + "0000", ours, "".join(str(1 + swap) for swap in swaps) + "0000"))
    found, as_ruled = Counter(), 0
    for H in range(1, 41):
        for swaps in swaps_tried(H):
            file = one_record(page, "all", swaps)
            ours = our_phases(file)[0]
            found[sort_of(ours, page.phases("all")[0])] += 1
            as_ruled += ours == reply_by_rule(file, swaps)
    page.see(11, "H from 1 to 40: records of which the rule foretells the reply; 18, 12, accepted with plink2's phases, with others",
             (as_ruled, [found[sort] for sort in SORTS]), (512, [273, 208, 9, 22]))


def herd_calls(seed, N, M):
    """The calls of a made-up herd, every one phased: each variant's allele frequency is drawn, then each of its alleles."""
    rng = random.Random(f"herd {seed}")
    frequencies = [rng.random() for _ in range(M)]
    return [["|".join(str(int(rng.random() < frequency)) for _ in range(2)) for _ in range(N)] for frequency in frequencies]


def all_phased_herds(page):
    """11: herds with every call phased."""
    found, accepted, misread = Counter(), 0, 0
    for seed in range(12):
        file = page.from_calls(f"herd{seed}", herd_calls(seed, 24, 400))
        misread += sum(sort_of(ours, theirs) == "other" for ours, theirs in zip(our_rows(file), page.rows(f"herd{seed}")))
        replies = zip(read_header(file).types, our_phases(file), page.phases(f"herd{seed}"))
        found.update(sort_of(ours, theirs) for its_type, ours, theirs in replies if its_type & PHASED)
        accepted += our_check(file) == ACCEPTED
    page.see(11, "12 herds of 24 samples and 400 variants: files accepted; records refused with 18, with 12, read as plink2's phases, as others",
             (accepted, [found[sort] for sort in SORTS]), (0, [4369, 231, 0, 3]))
    page.see(11, "the same: rows read as other categories", misread, 0)


def otherwise(page):
    """11: a file that each accepts and reads as other phases, with a record that leans."""
    file = page.from_calls("otherwise", OTHERWISE)
    page.see(11, "accepted, and read as other phases: types, tracks, our check, --validate",
             ([hex(number) for number in read_header(file).types], file[34:36].hex(" "), file[-2:].hex(" "), our_check(file), page.valid("otherwise")),
             (["0x10", "0x12"], "00 01", "00 01", ACCEPTED, "passes"))
    swapped = [[row_swaps(row) for row in rows] for rows in (our_phases(file), page.phases("otherwise"))]
    page.see(11, "the same: the swapped samples, ours and plink2's", swapped, [[[16], [0]], [[23], [23]]])
    page.see(11, "the same: categories as exported", our_rows(file) == page.rows("otherwise"), True)
    anchor = ["0|0", "1|1"] * 16 + ["1|0"] * 8
    file = page.from_calls("leans", [anchor, [call.replace("|", "/") for call in anchor]])
    page.see(11, "an unphased record that leans on such a one: types, our categories, our phases",
             ([hex(number) for number in read_header(file).types], our_rows(file), our_phases(file)), (["0x10", "0x2"], ["18 34"] * 2, ["18 34"] * 2))


def handed_to_plink2(page):
    """12: our records in which every heterozygous call is phased, handed to plink2."""
    found, as_ruled = Counter(), 0
    for H in range(1, 41):
        for swaps in swaps_tried(H):
            row, phases = "1" * H + "0000", "".join(str(1 + swap) for swap in swaps) + "0000"
            page.put("ours", file_of(H + 4, (PHASED, our_phased_record(row, phases, 0), None), form=0x44))
            theirs, valid = page.phases("ours"), page.valid("ours")
            foretold = "".join(str(1 + swap) for swap in ([0] * 7 + swaps)[:H]) + "0000"
            as_ruled += theirs == [foretold] and (valid == "passes") == (H % 8 == 0 and not any(swaps[-7:]))
            found[valid, theirs == [phases]] += 1
    page.see(12, "H from 1 to 40: records of which the rule foretells plink2's reply", as_ruled, 512)
    page.see(12, "the same: --validate refuses or passes, and whether the phases exported are those written", dict(found),
             {("refuses", True): 70, ("refuses", False): 424, ("passes", True): 9, ("passes", False): 9})
    page.put("ours", file_of(12, (PHASED, our_phased_record("1" * 8 + "0000", "2" * 8 + "0000", 0), None), form=0x44))
    page.made("ours_again", "--pfile", "ours")
    page.see(12, "eight calls, all swapped: --export vcf, and the same after --make-pgen", (page.phases("ours"), page.phases("ours_again")),
             (["111111120000"], ["111111120000"]))


def other_tracks(page):
    """12: tracks that plink2 does not write."""
    for what, row, track, ours, theirs in (("presence bits stored though all are set", "11110000", b"\x1f\x0a", "12120000", ("passes", ["12120000"])),
                                           ("presence bits all clear", "11110000", b"\1", "00000000", ("refuses", "refuses")),
                                           ("no heterozygous call", "00000000", b"\0", "00000000", ("refuses", "refuses"))):
        file = page.put("track", file_of(8, (PHASED, our_record(row, 0) + track, None), form=0x44))
        page.see(12, f"{what}: our check, our phases, --validate, --export vcf", (our_check(file), our_phases(file), page.valid("track"), page.phases("track")),
                 (ACCEPTED, [ours], *theirs))


def flipped(page):
    """13: flipping a file with phases."""
    calls = with_one_unphased(drawn("flip", 90, 0.2))
    file = page.from_calls("phased_herd", calls)
    third = range(0, len(calls), 3)
    (page.folder / "turned_phased.txt").write_text("".join(f"v{v}\tC\n" for v in third))
    page.made("phased_forced", "--pfile", "phased_herd", "--ref-allele", "force", "turned_phased.txt", 2, 1)
    ours = page.put("phased_turned", our_flip(file, third), turned=third)
    forced = page.rows("phased_forced"), page.phases("phased_forced")
    page.see(13, "our flip reads as plink2 --ref-allele force, categories and phases: by us, by plink2; --validate",
             ((our_rows(ours), our_phases(ours)) == forced, (page.rows("phased_turned"), page.phases("phased_turned")) == forced, page.valid("phased_turned")),
             (True, True, "passes"))
    row = "0" * 50 + "1" * 48 + "32"
    file = file_of(100, (PHASED + 1, our_phased_record(row, "0" * 51 + "12" * 23 + "100", 1, 1), None), form=0x44)
    page.put("phased_pair", our_flip(file, [0]))
    page.made("phased_pair_again", "--pfile", "phased_pair")
    page.see(13, "kind 1, code 1, flipped: plink2 --geno-counts, and after --make-pgen", (page.counts("phased_pair"), page.counts("phased_pair_again")),
             ([[1, 46, 52, 1]], [[1, 48, 50, 1]]))


def without_phases(page):
    """14: handed over without phases."""
    for N in (16, 90, 300):
        page.from_calls(f"all{N}", drawn(f"all {N}", N, 0))
        file = page.made(f"erased{N}", "--pfile", f"all{N}", how=["erase-phase"])
        page.see(14, f"N = {N}, erase-phase: types with phases, our check, our categories as exported",
                 (has_phases(file), our_check(file), our_rows(file) == page.rows(f"all{N}")), (False, ACCEPTED, True))
        page.see(14, "the same: --pgen-info of the first set and of this", [page.phases_said(name) for name in (f"all{N}", f"erased{N}")],
                 ["Explicitly phased hardcalls present", "No hardcalls are explicitly phased"])


def with_a_sample(page):
    """14: handed over with phases, and with one sample more."""
    for N in (16, 90, 300):
        name, later = f"all{N}", f"added{N}"
        calls = drawn(f"all {N}", N, 0)
        page.from_calls(name, calls)
        file = page.with_sample(name, later)
        others = [[row[:-1] for row in rows] for rows in (our_rows(file), our_phases(file))]
        page.see(14, f"N = {N}, a sample added: our check; its categories and phases; the others' as exported of the first set",
                 (our_check(file), {row[-1] for row in our_rows(file)}, {row[-1] for row in our_phases(file)}, others == [page.rows(name), page.phases(name)]),
                 (ACCEPTED, {"1"}, {"0"}, True))
        third = range(0, len(calls), 3)
        (page.folder / "turned_all.txt").write_text("".join(f"v{v}\tC\n" for v in third))
        page.made("all_forced", "--pfile", name, "--ref-allele", "force", "turned_all.txt", 2, 1)
        page.put("added_turned", our_flip(file, third), turned=third)
        (page.folder / "added_turned.psam").write_text((page.folder / f"{later}.psam").read_text())
        (page.folder / "added.txt").write_text("UNPHASED\n")
        page.made("taken_out", "--pfile", "added_turned", "--remove", "added.txt")
        page.see(14, f"N = {N}, then flipped by us, and the sample taken out by plink2 --remove: categories and phases as --ref-allele force of the first set",
                 (page.rows("taken_out") == page.rows("all_forced"), page.phases("taken_out") == page.phases("all_forced")), (True, True))


def with_two_samples(page):
    """14: 255 samples and one more are 256, of which fact 2 warns; with two more all agree."""
    page.from_calls("all255", drawn("all 255", 255, 0))
    page.see(14, "N = 255, a sample added: our check", our_check(page.with_sample("all255", "added255")), "17 170")
    file = page.with_sample("added255", "added256", "UNPHASED2")
    others = [[row[:-2] for row in rows] for rows in (our_rows(file), our_phases(file))]
    page.see(14, "N = 255, two samples added: our check; the others' categories and phases as exported of the first set",
             (our_check(file), others == [page.rows("all255"), page.phases("all255")]), (ACCEPTED, True))


FACTS = (some_unphased, all_phased, all_phased_herds, otherwise, handed_to_plink2, other_tracks, flipped, without_phases, with_a_sample, with_two_samples)
