// A file on disk, for plink2 and for the library.
//   disk make SAMPLES NAME   a file of about 250 MB, with what plink2 wants beside it
//   disk run NAME            the seconds to read and check it, to read it and count all categories, and to read, flip and write it
#include "timed.h"
#include "make.h"
#include "measure.h"

static void put(int to, const u8 *p, usize size)
{
    while (size) {
        i64 done = write(to, p, size);
        if (done <= 0) {
            dprintf(2, "cannot write\n");
            exit(1);
        }
        p += done;
        size -= done;
    }
}

// The file, with the .pvar and .psam that plink2 wants, and the list of a third of the variants for --ref-allele.
static void make(usize samples, const char *name)
{
    static char path[4096], text[1 << 20];
    usize used;
    struct bodies *b = make_bodies(samples, WHOLE, 0);
    struct file file = make_file(b, b->variants, 0x41);
    snprintf(path, sizeof path, "%s.pgen", name);
    int to = creat(path, 0644);
    put(to, file.bytes, file.size);
    close(to);
    snprintf(path, sizeof path, "%s.psam", name);
    to = creat(path, 0644);
    used = snprintf(text, sizeof text, "#IID\tSEX\n");
    for (usize i = 0; i < samples; i++) used += snprintf(text + used, sizeof text - used, "s%lu\tNA\n", i);
    put(to, (u8 *)text, used);
    close(to);
    snprintf(path, sizeof path, "%s.pvar", name);
    to = creat(path, 0644);
    snprintf(path, sizeof path, "%s.third", name);
    int third = creat(path, 0644);
    put(to, (const u8 *)"#CHROM\tPOS\tID\tREF\tALT\n", 22);
    for (usize v = 0; v < file.variants;) {
        used = 0;
        for (; v < file.variants && used < sizeof text - 100; v++) used += snprintf(text + used, 100, "1\t%lu\tv%lu\tA\tC\n", v + 1, v);
        put(to, (u8 *)text, used);
    }
    for (usize v = 0; v < file.variants;) {
        used = 0;
        for (; v < file.variants && used < sizeof text - 100; v += 3) used += snprintf(text + used, 100, "v%lu\tC\n", v);
        put(third, (u8 *)text, used);
    }
    close(to);
    close(third);
}

static void get(const char *path, u8 *p, usize size)
{
    int from = open(path, 0);
    while (size) {
        i64 done = read(from, p, size);
        if (done <= 0) {
            dprintf(2, "cannot read %s\n", path);
            exit(1);
        }
        p += done;
        size -= done;
    }
    close(from);
}

// How many bytes of a row are `category`: by 255 at a time, so that a byte counts them and the compiler makes a vector loop.
static usize count_of(const u8 *row, usize n, u8 category)
{
    usize count = 0;
    for (usize from = 0; from < n; from += 255) {
        usize to = n - from < 255 ? n : from + 255;
        u8 few = 0;
        for (usize i = from; i < to; i++) few += row[i] == category;
        count += few;
    }
    return count;
}

// The categories of each row counted, rows from the library, counts in C.
static void count_all(struct file file, u8 *work_area)
{
    static u8 row[65536];
    static volatile usize counts[4];
    struct rows r = timed_start_rows(file.bytes, file.size, work_area, 65536);
    for (usize v = 0; v < file.variants && r.refusal == 0; v++) {
        r = timed_next_row(r, file.bytes, file.size, row, sizeof row, work_area, 65536);
        for (u8 category = 1; category < 4; category++) counts[category] = count_of(row, file.samples, category);
    }
    if (r.refusal) fail("rows of the file on disk");
}

// What plink2 does from disk to disk, by the library: the least of three rounds each.
static void disk(const char *name)
{
    static char path[4096], result[4096];
    static u8 work_area[65536], *set;
    struct file file;
    struct file_told check;
    struct told told;
    snprintf(path, sizeof path, "%s.pgen", name);
    snprintf(result, sizeof result, "%s.flipped.pgen", name);
    int from = open(path, 0);
    file.size = lseek(from, 0, 2);
    close(from);
    file.bytes = pages(file.size);
    double read_and_check = 1e99, read_and_count = 1e99, whole_flip = 1e99;
    for (int round = 0; round < 3; round++) {
        double t = on_clock();
        get(path, file.bytes, file.size);
        check = timed_check(file.bytes, file.size, work_area, sizeof work_area);
        t = on_clock() - t;
        if (t < read_and_check) read_and_check = t;
        if (check.refusal) fail("check of the file on disk");
        file.variants = check.variants;
        file.samples = check.samples;
        t = on_clock();
        get(path, file.bytes, file.size);
        count_all(file, work_area);
        t = on_clock() - t;
        if (t < read_and_count) read_and_count = t;
        if (!set) {
            set = pages(file.variants / 8 + 1);
            for (usize v = 0; v < file.variants; v += 3) set[v / 8] |= 1 << v % 8;
        }
        t = on_clock();
        get(path, file.bytes, file.size);
        told = timed_flip(file.bytes, file.size, set, (file.variants + 7) / 8, work_area, sizeof work_area);
        int to = creat(result, 0644);
        put(to, file.bytes, file.size);
        close(to);
        t = on_clock() - t;
        if (t < whole_flip) whole_flip = t;
        if (told.refusal) fail("flip of the file on disk");
    }
    printf("%.2f %.2f %.2f\n", read_and_check, read_and_count, whole_flip);
}

int main(int count, char **words)
{
    if (count == 4 && !strcmp(words[1], "make")) make(atol(words[2]), words[3]);
    else if (count == 3 && !strcmp(words[1], "run")) disk(words[2]);
    else return 2;
    return 0;
}
