// Files made for timing, in memory.
#ifndef BENCH_MAKE_H
#define BENCH_MAKE_H
#include "c.h"

// About how many bytes the records of a whole file have.
enum { WHOLE = 250000000 };

struct file { u8 *bytes; usize size, variants, samples; };

void *pages(usize size);
u64 rnd(void);
// Records one after another, with their lengths and types.
struct bodies {
    usize samples, variants;
    u8 *bytes;
    u32 *lengths;
    u8 *types;
};

// What the next record needs of those before it: the last that leans on none, and its row if it is read.
struct before { u8 *body, type; usize size; int read; u8 row[65536]; };

u8 pick_type(usize variant, int phased);
u8 *put_record(u8 *p, usize n, u8 type, struct before *before);
struct bodies *make_bodies(usize samples, usize bytes, int phased);
struct bodies *make_alike(usize samples, usize variants, u8 type);
void drop_bodies(struct bodies *b, usize bytes);
struct file make_file(const struct bodies *b, usize variants, u8 form);
struct file make_header(usize variants, u8 form);
struct file make_mix(usize samples, usize variants, u8 form, u8 mode, int phased);
#endif
