// The public calls on whole files, against the plain C program and memcpy of the same bytes.
//   whole headers   the header check, 1,000,000 and 16,777,216 variants, each form
//   whole files     files of about 250 MB: check, rows, read, flip, write
//   whole growth    the same over 1, 2, 4 and 8 times the size
#include "file.h"

static usize kind, code;

static void header_ours(void *on) { check_1 = timed_header_check(file.bytes, file.size); }
static void header_plain(void *on) { check_2 = plain_header_check(file.bytes, file.size); }
static void read_ours(void *on) { told_1 = timed_read(file.bytes, file.size, variant, row, sizeof row, work_1, sizeof work_1); }
static void read_plain(void *on) { told_2 = plain_read(file.bytes, file.size, variant, other, sizeof other, work_2, sizeof work_2); }

static void headers(void)
{
    static const usize counts[2] = {1000000, 16777216};
    static const u8 forms[5] = {0x40, 0x41, 0x42, 0x43, 0x47};
    char what[80];
    head("Header check");
    for (int k = 0; k < 2; k++)
        for (int f = 0; f < 5; f++) {
            file = make_header(counts[k], forms[f]);
            usize whole = file.size, blocks = (counts[k] + 65535) / 65536;
            usize size = 12 + 8 * blocks + (forms[f] % 16 < 4 ? counts[k] / 2 : counts[k]) + (forms[f] % 4 + 1) * counts[k];
            copied = pages(size);
            header_ours(0), header_plain(0);
            same_check("header check");
            if (check_1.variants != counts[k]) fail("header check");
            // memcpy of the header alone: the rest is not read
            snprintf(what, sizeof what, "M = %lu, %s types, lengths of %d", counts[k], forms[f] % 16 < 4 ? "4-bit" : "8-bit", forms[f] % 4 + 1);
            three(what, size, header_ours, header_plain, 1);
            munmap(file.bytes, whole + 4096);
            munmap(copied, size + 4096);
        }
}

// The first forty variants, and some all over the file, read by both.
static void read_both(void)
{
    for (usize k = 0; k < 60; k++) {
        variant = k < 40 ? k : rnd() % file.variants;
        read_ours(0), read_plain(0);
        same_told("read");
        if (told_1.refusal) fail("read");
    }
}

// A row as each kind would have it, written in that kind.
static u8 categories[65536], anchor[65536], out_1[262144], out_2[262144];

static void write_ours(void *on)
{
    for (int i = 0; i < 20; i++) told_1 = timed_write_record(categories, file.samples, kind, code, anchor, kind == 2 || kind == 3 ? file.samples : 0, out_1, sizeof out_1);
}

static void write_plain(void *on)
{
    for (int i = 0; i < 20; i++) told_2 = plain_write_record(categories, file.samples, kind, code, anchor, kind == 2 || kind == 3 ? file.samples : 0, out_2, sizeof out_2);
}

static void writes(void)
{
    static const u8 kinds[7] = {0, 1, 2, 3, 4, 6, 7};
    char what[80];
    usize n = file.samples;
    printf("\n| Write of one record, N = %lu | record bytes | library us | C us | library GB/s of categories | library / C |\n|---|---|---|---|---|---|\n", n);
    for (int k = 0; k < 7; k++) {
        kind = kinds[k];
        code = kind == 1;
        for (usize i = 0; i < n; i++) {
            usize r = rnd() % 100;
            anchor[i] = r < 60 ? 0 : r < 90 ? 1 : r < 98 ? 2 : 3;
            u8 value = kind == 0 ? rnd() % 4 : kind == 1 ? rnd() % 2 : kind == 2 ? anchor[i] : kind == 3 ? (anchor[i] == 0 ? 2 : anchor[i] == 2 ? 0 : anchor[i]) : kind - 4;
            categories[i] = rnd() % 50 ? value : rnd() % 4;
        }
        write_ours(0), write_plain(0);
        if (memcmp(&told_1, &told_2, sizeof told_1) || memcmp(out_1, out_2, sizeof out_1) || told_1.refusal) fail("write");
        work *works[] = {write_ours, write_plain};
        void *on[2] = {0};
        double least[2];
        take_turns(works, on, 2, 200, 0.4, least);
        snprintf(what, sizeof what, "kind %lu", kind);
        printf("| %s | %lu | %.2f | %.2f | %.2f | %.2f |\n", what, told_1.value, least[0] / 20 * 1e6, least[1] / 20 * 1e6, n * 20 / least[0] / 1e9, least[1] / least[0]);
    }
}

static void files(void)
{
    static const usize samples[2] = {2000, 20000};
    char what[80];
    for (int k = 0; k < 2; k++) {
        struct bodies *b = make_bodies(samples[k], WHOLE, 0);
        take_file(b, b->variants, 0x41);
        snprintf(what, sizeof what, "N = %lu, M = %lu", file.samples, file.variants);
        head(what);
        header_ours(0), header_plain(0);
        same_check("header check");
        usize header = 12 + 8 * ((file.variants + 65535) / 65536) + file.variants / 2 + 2 * file.variants;
        three("header check (MB of the header)", header, header_ours, header_plain, 0.5);
        check_both();
        three("whole-file check", file.size, check_ours, check_plain, 8);
        rows_both();
        three("rows over the file", file.size, rows_ours, rows_plain, 8);
        memset(work_1, 0, sizeof work_1);
        memset(work_2, 0, sizeof work_2);
        read_both();
        variant = file.variants - 1;
        three("read of the last variant (MB of the header)", header, read_ours, read_plain, 0.5);
        flip_both();
        three("flip of a third of the variants", file.size, flip_ours, flip_plain, 8);
        // both were flipped as often
        if (memcmp(file.bytes, twin.bytes, file.size)) fail("flip");
        writes();
        drop_file();
    }
}

static void growth(void)
{
    static const usize samples[2] = {2000, 20000};
    printf("\n| Growth: ns per byte | MB | check | check in C | rows | rows in C | flip | flip in C |\n|---|---|---|---|---|---|---|---|\n");
    for (int k = 0; k < 2; k++) {
        struct bodies *b = make_bodies(samples[k], WHOLE, 0);
        for (usize part = 8; part; part /= 2) {
            take_file(b, b->variants / part, 0x41);
            check_both(), flip_both(), rows_both();
            work *works[] = {check_ours, check_plain, rows_ours, rows_plain, flip_ours, flip_plain};
            void *on[6] = {0};
            double least[6];
            take_turns(works, on, 6, 7, 8.0 / part, least);
            printf("| N = %lu, %lu times | %.1f |", samples[k], 8 / part, file.size / 1e6);
            for (int i = 0; i < 6; i++) printf(" %.3f |", least[i] * 1e9 / file.size);
            printf("\n");
            memset(work_1, 0, sizeof work_1);
            memset(work_2, 0, sizeof work_2);
            drop_file();
        }
    }
}

int main(int count, char **words)
{
    if (count != 2) return 2;
    if (!strcmp(words[1], "headers")) headers();
    else if (!strcmp(words[1], "files")) files();
    else if (!strcmp(words[1], "growth")) growth();
    else return 2;
    return 0;
}
