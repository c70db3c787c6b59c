// One file, what the library and the C program make of it, and the lines of a table that compares them: for whole.c and phased.c.
#ifndef BENCH_FILE_H
#define BENCH_FILE_H
#include "timed.h"
#include "make.h"
#include "measure.h"

static struct file file, twin;
static u8 row[65536], other[65536], work_1[65536], work_2[65536], *copied, *set;
static usize variant;
static u64 sum_1, sum_2;
static struct file_told check_1, check_2;
static struct told told_1, told_2;

static inline void same_told(const char *what)
{
    if (memcmp(&told_1, &told_2, sizeof told_1) || memcmp(row, other, sizeof row) || memcmp(work_1, work_2, sizeof work_1)) fail(what);
}

static inline void same_check(const char *what)
{
    if (memcmp(&check_1, &check_2, sizeof check_1) || memcmp(work_1, work_2, sizeof work_1) || check_1.refusal) fail(what);
}

static usize to_copy;

static inline void copy(void *on) { memcpy(copied, file.bytes, to_copy); }
static inline void check_ours(void *on) { check_1 = timed_check(file.bytes, file.size, work_1, sizeof work_1); }
static inline void check_plain(void *on) { check_2 = plain_check(file.bytes, file.size, work_2, sizeof work_2); }
static inline void flip_ours(void *on) { told_1 = timed_flip(file.bytes, file.size, set, (file.variants + 7) / 8, work_1, sizeof work_1); }
static inline void flip_plain(void *on) { told_2 = plain_flip(twin.bytes, twin.size, set, (file.variants + 7) / 8, work_2, sizeof work_2); }

static inline void rows_ours(void *on)
{
    struct rows r = timed_start_rows(file.bytes, file.size, work_1, sizeof work_1);
    sum_1 = 0;
    if (r.refusal) return;
    for (usize v = 1; v <= file.variants; v++) {
        r = timed_next_row(r, file.bytes, file.size, row, sizeof row, work_1, sizeof work_1);
        if (r.refusal) return;
        sum_1 += row[v % file.samples] + 4 * row[file.samples - 1];
    }
}

static inline void rows_plain(void *on) { sum_2 = plain_rows(file.bytes, file.size, other, 0, work_2); }

static inline void line(const char *what, double bytes, double ours, double plain, double copy)
{
    printf("| %s | %.1f | %.2f | %.2f | %.2f | %.2f | %.2f |\n", what, bytes / 1e6, ours * 1e3, plain * 1e3, bytes / ours / 1e9, plain / ours, copy * 1e3);
}

static inline void head(const char *of)
{
    printf("\n| %s | MB | library ms | C ms | library GB/s | library / C | memcpy ms |\n|---|---|---|---|---|---|---|\n", of);
}

static inline void three(const char *what, double bytes, work *ours, work *plain, double seconds)
{
    work *works[] = {ours, plain, copy};
    void *on[3] = {0};
    double least[3];
    to_copy = bytes;
    take_turns(works, on, 3, 50, seconds, least);
    line(what, bytes, least[0], least[1], least[2]);
}

static inline void take_file(const struct bodies *b, usize variants, u8 form)
{
    file = make_file(b, variants, form);
    twin = file;
    twin.bytes = pages(file.size);
    memcpy(twin.bytes, file.bytes, file.size);
    copied = pages(file.size);
    set = pages(variants / 8 + 1);
    for (usize v = 0; v < variants; v++)
        if (rnd() % 3 == 0) set[v / 8] |= 1 << v % 8;
    memset(row, 0, sizeof row);
    memset(other, 0, sizeof other);
    to_copy = file.size;
    copy(0);
}

static inline void drop_file(void)
{
    munmap(file.bytes, file.size + 4096);
    munmap(twin.bytes, file.size + 4096);
    munmap(copied, file.size + 4096);
    munmap(set, file.variants / 8 + 1 + 4096);
}

static inline void check_both(void)
{
    check_ours(0), check_plain(0);
    same_check("whole-file check");
}

static inline void flip_both(void)
{
    flip_ours(0), flip_plain(0);
    same_told("flip");
    if (told_1.refusal || memcmp(file.bytes, twin.bytes, file.size)) fail("flip");
}

static inline void rows_both(void)
{
    rows_ours(0), rows_plain(0);
    if (sum_1 != sum_2 || sum_1 == 0 || memcmp(row, other, sizeof row)) fail("rows");
}
#endif
