// A record of each kind, and files of all kinds: read by itself, as a row among others, and checked. A line for each: samples, what, bytes a record, and
// nanoseconds a record of the library's read, rows and check, then of the C program's.
//   reads plain|phased   records without a phase track, or with one
#define TIME on_clock
#include "file.h"

static void reads_ours(void *on)
{
    for (variant = 0; variant < file.variants; variant++)
        told_1 = timed_read(file.bytes, file.size, variant, row, sizeof row, work_1, sizeof work_1);
}

static void reads_plain(void *on)
{
    for (variant = 0; variant < file.variants; variant++)
        told_2 = plain_read(file.bytes, file.size, variant, other, sizeof other, work_2, sizeof work_2);
}

// Each variant read by both, and the same.
static void read_each(void)
{
    for (variant = 0; variant < file.variants; variant++) {
        told_1 = timed_read(file.bytes, file.size, variant, row, sizeof row, work_1, sizeof work_1);
        told_2 = plain_read(file.bytes, file.size, variant, other, sizeof other, work_2, sizeof work_2);
        same_told("read");
        if (told_1.refusal) fail("read");
    }
}

static void clear_work(void)
{
    memset(work_1, 0, sizeof work_1);
    memset(work_2, 0, sizeof work_2);
}

static void measure(const char *what)
{
    work *works[] = {reads_ours, rows_ours, check_ours, reads_plain, rows_plain, check_plain};
    void *on[6] = {0};
    double least[6];
    read_each();
    rows_both();
    clear_work();
    check_both();
    take_turns(works, on, 6, 200, 0.3, least);
    printf("%lu\t%s\t%lu", file.samples, what, file.size / file.variants);
    for (int i = 0; i < 6; i++) printf("\t%.1f", least[i] * 1e9 / file.variants);
    printf("\n");
    clear_work();
}

// 64 records of one kind; then some 1,000 of all kinds, where a read is mostly the header's check.
static void measure_all(usize samples, u8 phased)
{
    static const u8 kinds[7] = {0, 1, 2, 3, 4, 6, 7};
    u8 form = phased ? 0x45 : 0x41;
    char what[80];
    for (int k = 0; k < 7; k++) {
        struct bodies *b = make_alike(samples, 64, kinds[k] | phased);
        take_file(b, 64, form);
        snprintf(what, sizeof what, "kind %d", kinds[k]);
        measure(what);
        drop_file();
        drop_bodies(b, 64 * samples);
    }
    struct bodies *b = make_bodies(samples, 80 * samples, phased);
    take_file(b, b->variants, form);
    measure("all kinds");
    drop_file();
    drop_bodies(b, 80 * samples);
}

int main(int count, char **words)
{
    if (count != 2) return 2;
    u8 phased = strcmp(words[1], "phased") ? 0 : 16;
    measure_all(2000, phased);
    measure_all(20000, phased);
    return 0;
}
