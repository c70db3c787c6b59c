// A file's header taken apart, and the walk through the records of an accepted file.
#ifndef BENCH_WALK_H
#define BENCH_WALK_H
#include "plain.h"

// What a header says of its arrays, in mode 0x10.
struct header {
    usize mode, variants, samples, form, end;
    usize half, width, stored, at, full;
};

static inline usize number(const u8 *p, usize width)
{
    usize x = 0;
    for (usize i = 0; i < width; i++) x |= (usize)p[i] << 8 * i;
    return x;
}

static inline usize types_size(const struct header *h, usize n)
{
    return h->half ? (n + 1) / 2 : n;
}

static inline usize block_size(const struct header *h, usize n)
{
    return types_size(h, n) + h->width * n + (h->stored ? (n + 7) / 8 : 0);
}

static inline usize in_block(const struct header *h, usize block)
{
    usize left = h->variants - 65536 * block;
    return left < 65536 ? left : 65536;
}

static inline u8 type_at(const u8 *types, usize i, usize half)
{
    return !half ? types[i] : i % 2 ? types[i / 2] >> 4 : types[i / 2] & 15;
}

static inline int leans(u8 type)
{
    return (type & 6) == 2;
}

static inline int phased(u8 type)
{
    return (type & 16) != 0;
}

static inline struct file_told refuse(usize refusal, usize place, usize named)
{
    return (struct file_told){refusal, place, named, 0, 0, 0, 0};
}

static inline struct told told_of(struct file_told header)
{
    return (struct told){header.refusal, header.place, header.named, 0};
}

// Where the arrays stand, by mode, M, N and form; and the header check, with what it found (header.c).
void plain_lay_out(struct header *h);
struct file_told plain_open(const u8 *file, usize size, struct header *h);

// A walk through the records of an accepted file: pointers into the block's types and lengths, moved on.
// `heterozygous` is the anchor's H, or UNKNOWN.
struct walk {
    const struct header *h;
    usize variant, left, start;
    const u8 *types, *lengths;
    usize i, heterozygous;
};

#define UNKNOWN ((usize)-1)

struct record { usize start, end; u8 type; };

static inline struct walk walk_from(const struct header *h)
{
    return (struct walk){h, 0, 0, h->end, 0, 0, 0, UNKNOWN};
}

static inline int next_record(const u8 *file, struct walk *w, struct record *r)
{
    const struct header *h = w->h;
    if (w->variant == h->variants) return 0;
    r->start = w->start;
    if (h->mode == 2) {
        r->type = 0;
        r->end = w->start + (h->samples + 3) / 4;
    } else {
        if (w->left == 0) {
            usize block = w->variant / 65536;
            w->left = in_block(h, block);
            w->types = file + h->at + block * h->full;
            w->lengths = w->types + types_size(h, w->left);
            w->i = 0;
        }
        r->type = type_at(w->types, w->i++, h->half);
        r->end = w->start + number(w->lengths, h->width);
        w->lengths += h->width;
        w->left--;
    }
    w->variant++;
    w->start = r->end;
    return 1;
}

// Whether the record after the one that the walk gave leans.
static inline int next_leans(const struct walk *w)
{
    return w->left && leans(type_at(w->types, w->i, w->h->half));
}

// The phases of a record of that type, which may have none (files.c).
void plain_phases(u8 type, const struct phase_track *track, const u8 *row, usize n, u8 *phases);

// The record that the walk gave, checked (files.c). The row has the anchor's categories where one leans, and is made only where the next record leans.
int plain_pass(const u8 *file, struct walk *w, const struct record *r, u8 *row, struct phase_track *track, struct told *told);
#endif
