// Records made for timing, in memory, of all kinds, drawn at random with a fixed seed:
//   45 in 100 list few samples against one category (kind 4 mostly, then 6, then 7),
//   25 lean on the nearest record before them that does not (kind 2, a quarter of them kind 3),
//   18 have a pair code, a bit for each sample and a short list (kind 1),
//   12 have two bits for each sample (kind 0).
// In a phased file three records in four have a phase track; in a quarter of these all calls are phased, in the others some seven in eight.
// No list is longer than plink2 allows, N / 8 samples (N / 16 in kind 1), so that plink2 can read the same file.
#include "make.h"
#include "plain.h"

void *pages(usize size)
{
    void *p = mmap(0, size + 4096, 3, 0x22, -1, 0);
    if (p == (void *)-1) {
        dprintf(2, "no memory for %lu bytes\n", size);
        exit(1);
    }
    return p;
}

static u64 seed = 88172645463325252ul;

u64 rnd(void)
{
    seed ^= seed << 13;
    seed ^= seed >> 7;
    seed ^= seed << 17;
    return seed;
}

static u8 *put_varint(u8 *p, usize x)
{
    while (x >= 128) {
        *p++ = x % 128 + 128;
        x >>= 7;
    }
    *p++ = x;
    return p;
}

// The samples of the list made last.
static u16 samples[65536];
static usize made;

// A list of some `count` samples, spread over all, whose values are none of the two and not the row's where there is a row.
static u8 *put_list(u8 *p, usize n, usize count, u8 lower, u8 higher, const u8 *row)
{
    made = 0;
    if (count == 0 || n < 8) {
        *p++ = 0;
        return p;
    }
    usize most = 2 * n / count, sample = rnd() % most;
    while (made < count && sample < n) {
        samples[made++] = sample;
        sample += 1 + rnd() % (most - 1);
    }
    p = put_varint(p, made);
    if (made == 0) return p;
    usize groups = (made + 63) / 64, wide = n > 256 ? 2 : 1;
    u8 *sizes = p + groups * wide, *values = sizes + groups - 1, *steps = values + (made + 3) / 4, *from = steps;
    memset(values, 0, (made + 3) / 4);
    for (usize k = 0; k < made; k++) {
        if (k % 64 == 0) {
            if (k) *sizes++ = steps - from - 63;
            from = steps;
            *p++ = samples[k];
            if (wide == 2) *p++ = samples[k] >> 8;
        } else steps = put_varint(steps, samples[k] - samples[k - 1]);
        u8 value = rnd() & 3;
        while (row ? value == row[samples[k]] : value == lower || value == higher) value = (value + 1) & 3;
        values[k / 4] |= value << 2 * (k % 4);
    }
    return steps;
}

// Two bits for each sample: 0 in 9 of 16, 1 in 6, 2 in 1, as if an allele were in a quarter; one in 256 bytes has missing calls.
static u8 *put_array(u8 *p, usize n)
{
    usize size = (n + 3) / 4;
    for (usize i = 0; i < size; i += 8) {
        u64 a = rnd() & rnd(), b = rnd() & rnd(), one = 0x5555555555555555ul;
        u64 first = a & one, second = b & one;
        u64 x = (first ^ second) | (first & second) << 1;
        if (rnd() % 32 == 0) x |= 3;
        for (usize j = 0; j < 8 && i + j < size; j++) p[i + j] = x >> 8 * j;
    }
    if (n % 4) p[size - 1] &= (1 << 2 * (n % 4)) - 1;
    return p + size;
}

static u8 *put_bits(u8 *p, usize n)
{
    usize size = (n + 7) / 8;
    for (usize i = 0; i < size; i += 8) {
        u64 x = rnd() & rnd();
        for (usize j = 0; j < 8 && i + j < size; j++) p[i + j] = x >> 8 * j;
    }
    if (n % 8) p[size - 1] &= (1 << n % 8) - 1;
    return p + size;
}

// How many samples a list of few has: more often few than many.
static usize few(usize most)
{
    usize r = rnd() % 1000;
    return most * r * r * r / 1000000000;
}

static u8 pick_kind(usize variant)
{
    usize r = rnd() % 100;
    if (variant % 65536 == 0) return r < 50 ? 0 : 4;
    if (r < 38) return 4;
    if (r < 43) return 6;
    if (r < 45) return 7;
    if (r < 64) return 2;
    if (r < 70) return 3;
    if (r < 88) return 1;
    return 0;
}

static u8 *put_body(u8 *p, usize n, u8 kind, const u8 *anchor)
{
    static const u8 codes[6] = {1, 1, 1, 5, 2, 3}, lower[10] = {0, 0, 0, 0, 0, 1, 1, 0, 0, 2}, higher[10] = {0, 1, 2, 3, 0, 2, 3, 0, 0, 3};
    switch (kind) {
    case 0:
        return put_array(p, n);
    case 1: {
        u8 code = codes[rnd() % 6];
        *p = code;
        u8 *list = put_bits(p + 1, n), *end = put_list(list, n, few(n / 16), lower[code], higher[code], 0);
        // plink2 counts on a listed sample's bit being clear, as its own writer leaves it, and ours
        for (usize k = 0; k < made; k++) p[1 + samples[k] / 8] &= ~(1 << samples[k] % 8);
        return end;
    }
    case 2:
    case 3:
        return put_list(p, n, few(n / 10), 0, 0, anchor);
    default:
        return put_list(p, n, few(n / 10), kind - 4, kind - 4, 0);
    }
}

// `count` bits in a row, the first of them `first`; one in eight of the others is clear if `most`, else one in two. Gives how many are set.
static usize put_run(u8 *p, usize count, int first, int most)
{
    usize size = (count + 7) / 8;
    for (usize i = 0; i < size; i++) p[i] = most ? rnd() | rnd() | rnd() : rnd() >> 20;
    if (count % 8) p[size - 1] &= (1 << count % 8) - 1;
    if (first) p[0] |= 1;
    return plain_ones(p, size);
}

static u8 *put_phases(u8 *p, usize n, const u8 *row)
{
    usize h = plain_heterozygous(row, n), phased = h;
    if (rnd() % 4 == 0) *p++ = 0;
    else {
        phased = put_run(p, h + 1, 1, 1) - 1;
        p += (h + 8) / 8;
    }
    put_run(p, phased, 0, 0);
    return p + (phased + 7) / 8;
}

u8 *put_record(u8 *p, usize n, u8 type, struct before *b)
{
    static u8 row[65536];
    struct told told;
    struct phase_track track;
    u8 kind = type & 7;
    int leans = kind == 2 || kind == 3;
    if (leans && !b->read) {
        plain_body(b->body, 0, b->size, n, b->type, READ, b->row, &track, &told);
        b->read = 1;
    }
    u8 *end = put_body(p, n, kind, b->row);
    if (type & 16) {
        if (leans) memcpy(row, b->row, n);
        plain_body(p, 0, end - p, n, kind, READ, row, &track, &told);
        end = put_phases(end, n, row);
    }
    if (leans) return end;
    b->body = p;
    b->size = end - p;
    b->type = type;
    b->read = 0;
    return end;
}

u8 pick_type(usize variant, int phased)
{
    u8 kind = pick_kind(variant);
    return phased && rnd() % 4 ? kind | 16 : kind;
}

static struct bodies *no_bodies(usize samples, usize bytes)
{
    struct bodies *b = pages(sizeof *b);
    b->samples = samples;
    b->bytes = pages(bytes + 65536);
    b->lengths = pages(16777216 * sizeof(u32));
    b->types = pages(16777216);
    return b;
}

// One record more, at `p`; gives where it ends.
static u8 *put_next(struct bodies *b, u8 *p, u8 type)
{
    static struct before before;
    u8 *end = put_record(p, b->samples, type, &before);
    b->types[b->variants] = type;
    b->lengths[b->variants++] = end - p;
    return end;
}

struct bodies *make_bodies(usize samples, usize bytes, int phased)
{
    struct bodies *b = no_bodies(samples, bytes);
    for (u8 *p = b->bytes; p < b->bytes + bytes && b->variants < 16777216;) p = put_next(b, p, pick_type(b->variants, phased));
    return b;
}

// So many records of one type; if it leans, they lean on one before them of kind 0. None has more bytes than samples.
struct bodies *make_alike(usize samples, usize variants, u8 type)
{
    struct bodies *b = no_bodies(samples, variants * samples);
    int leans = (type & 7) == 2 || (type & 7) == 3;
    u8 *p = b->bytes;
    while (b->variants < variants) p = put_next(b, p, leans && b->variants == 0 ? type & 16 : type);
    return b;
}

void drop_bodies(struct bodies *b, usize bytes)
{
    munmap(b->bytes, bytes + 65536 + 4096);
    munmap(b->lengths, 16777216 * sizeof(u32) + 4096);
    munmap(b->types, 16777216 + 4096);
    munmap(b, sizeof *b + 4096);
}
