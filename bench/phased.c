// Files with phases, about 250 MB each: check, rows, rows with phases, flip; and the phases of each variant of a file of few.
#include "file.h"

static u8 phases_1[65536], phases_2[65536];

static void phased_rows_ours(void *on)
{
    struct rows r = timed_start_rows(file.bytes, file.size, work_1, sizeof work_1);
    sum_1 = 0;
    if (r.refusal) return;
    for (usize v = 1; v <= file.variants; v++) {
        r = timed_next_phased_row(r, file.bytes, file.size, row, sizeof row, phases_1, sizeof phases_1, work_1, sizeof work_1);
        if (r.refusal) return;
        sum_1 += row[v % file.samples] + 4 * row[file.samples - 1] + 16 * phases_1[v % file.samples] + 64 * phases_1[file.samples - 1];
    }
}

static void phased_rows_plain(void *on) { sum_2 = plain_rows(file.bytes, file.size, other, phases_2, work_2); }

// The phases of so many variants one after another, down to the first, so that a file of few variants spends its time on them and not on its header.
static usize some;

static void phases_ours(void *on)
{
    for (usize v = 0; v < some; v++)
        told_1 = timed_read_phases(file.bytes, file.size, variant - v, phases_1, sizeof phases_1, work_1, sizeof work_1);
}

static void phases_plain(void *on)
{
    for (usize v = 0; v < some; v++)
        told_2 = plain_read_phases(file.bytes, file.size, variant - v, phases_2, sizeof phases_2, work_2, sizeof work_2);
}

static void phases_both(void)
{
    some = 1;
    for (usize k = 0; k < 60; k++) {
        variant = k < 40 ? k : rnd() % file.variants;
        phases_ours(0), phases_plain(0);
        same_told("phases");
        if (told_1.refusal || memcmp(phases_1, phases_2, sizeof phases_1)) fail("phases");
    }
}

// Files of about 250 MB with phases, and one of 2,000 variants, each of which is read.
int main(void)
{
    static const usize samples[3] = {500, 2000, 20000};
    char what[80];
    for (int k = 0; k < 3; k++) {
        struct bodies *b = make_bodies(samples[k], WHOLE, 1);
        take_file(b, b->variants, 0x45);
        snprintf(what, sizeof what, "Phased, N = %lu, M = %lu", file.samples, file.variants);
        head(what);
        check_both();
        three("whole-file check", file.size, check_ours, check_plain, 6);
        rows_both();
        three("rows over the file", file.size, rows_ours, rows_plain, 6);
        phased_rows_ours(0), phased_rows_plain(0);
        if (sum_1 != sum_2 || sum_1 == 0 || memcmp(row, other, sizeof row) || memcmp(phases_1, phases_2, sizeof phases_1)) fail("rows with phases");
        three("rows with phases over the file", file.size, phased_rows_ours, phased_rows_plain, 6);
        memset(work_1, 0, sizeof work_1);
        memset(work_2, 0, sizeof work_2);
        phases_both();
        flip_both();
        three("flip of a third of the variants", file.size, flip_ours, flip_plain, 6);
        if (memcmp(file.bytes, twin.bytes, file.size)) fail("flip");
        drop_file();
        take_file(b, 2000, 0x45);
        phases_both();
        some = file.variants;
        variant = file.variants - 1;
        three("phases of each variant, 2,000 variants", file.size, phases_ours, phases_plain, 3);
        drop_file();
        drop_bodies(b, WHOLE);
    }
    return 0;
}
