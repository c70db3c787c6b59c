// One record: its list and its body, each part checked in stored order.
#include "plain.h"

static const u8 *refuse(struct told *told, usize refusal, usize place)
{
    told->refusal = refusal;
    told->place = place;
    return 0;
}

// A varint of at most five bytes, below 2^32, in its shortest form.
static const u8 *varint(const u8 *file, const u8 *p, const u8 *end, u32 *value, struct told *told)
{
    const u8 *first = p;
    u64 number = 0;
    for (int i = 0; i < 5; i++) {
        if (p == end) return refuse(told, 12, end - file);
        u8 b = *p++;
        number |= (u64)(b & 127) << 7 * i;
        if (b < 128) {
            if ((i && b == 0) || number >> 32) return refuse(told, 15, first - file);
            *value = number;
            return p;
        }
    }
    return refuse(told, 15, first - file);
}

// What a list makes of H: what it adds, and what it takes away of the row or the bits that it is against.
enum base { NOTHING, ROW, BITS };
struct tally { const u8 *bits; usize more, less; };

// Inlined into each of the walks below, so that only the one that counts has code for it.
static inline __attribute__((always_inline)) const u8 *walk(const u8 *file, const u8 *p, const u8 *end, usize n, int pair, u8 lower, u8 higher, int store,
                                                            u8 *row, enum base base, struct tally *tally, struct told *told)
{
    const u8 *first = p;
    u32 count;
    p = varint(file, p, end, &count, told);
    if (!p) return 0;
    if (count > n) return refuse(told, 16, first - file);
    if (count == 0) return p;
    usize groups = (count + 63) / 64, wide = n > 256 ? 2 : 1;
    if ((usize)(end - p) < groups * wide + groups - 1 + (count + 3) / 4) return refuse(told, 12, end - file);
    const u8 *heads = p, *sizes = heads + groups * wide, *values = sizes + groups - 1;
    p = values + (count + 3) / 4;
    if (count % 4 && p[-1] >> 2 * (count % 4)) return refuse(told, 18, p - 1 - file);
    usize sample = 0, k = 0, less = 0;
    for (usize g = 0; g < groups; g++) {
        const u8 *head = heads + g * wide, *from = p;
        usize next = wide == 1 ? head[0] : head[0] | (usize)head[1] << 8;
        if ((g > 0 && next <= sample) || next >= n) return refuse(told, next < n ? 23 : 24, head - file);
        sample = next;
        usize stop = k + 64 < count ? k + 64 : count;
        for (;;) {
            u8 value = values[k / 4] >> 2 * (k % 4) & 3;
            if (pair ? value == lower || value == higher : value == row[sample]) return refuse(told, 17, values + k / 4 - file);
            if (base == ROW) less += row[sample] == 1;
            if (base == BITS) less += (tally->bits[sample / 8] >> sample % 8 & 1 ? higher : lower) == 1;
            if (store) row[sample] = value;
            if (++k == stop) break;
            const u8 *at = p;
            u32 step;
            if (p < end && *p < 128) step = *p++;
            else {
                p = varint(file, p, end, &step, told);
                if (!p) return 0;
            }
            if (step == 0 || step >= n - sample) return refuse(told, step ? 24 : 23, at - file);
            sample += step;
        }
        if (g + 1 < groups && p - from != sizes[g] + 63) return refuse(told, 25, sizes + g - file);
    }
    if (tally) {
        tally->less = less;
        tally->more = plain_heterozygous_packed(values, count);
    }
    return p;
}

const u8 *plain_list(const u8 *file, const u8 *p, const u8 *end, usize n, int pair, u8 lower, u8 higher, int store, u8 *row, struct told *told)
{
    return walk(file, p, end, n, pair, lower, higher, store, row, NOTHING, 0, told);
}

// A list that is only checked, with what it makes of H.
static const u8 *count_off_row(const u8 *file, const u8 *p, const u8 *end, usize n, u8 *row, struct tally *tally, struct told *told)
{
    return walk(file, p, end, n, 0, 0, 0, 0, row, ROW, tally, told);
}

static const u8 *count_off_bits(const u8 *file, const u8 *p, const u8 *end, usize n, u8 lower, u8 higher, struct tally *tally, struct told *told)
{
    return walk(file, p, end, n, 1, lower, higher, 0, 0, BITS, tally, told);
}

static const u8 *count_off_category(const u8 *file, const u8 *p, const u8 *end, usize n, u8 category, struct tally *tally, struct told *told)
{
    return walk(file, p, end, n, 1, category, category, 0, 0, NOTHING, tally, told);
}

static const u8 pairs[10][2] = {[1] = {0, 1}, [2] = {0, 2}, [3] = {0, 3}, [5] = {1, 2}, [6] = {1, 3}, [9] = {2, 3}};

// Careful C for the two arrays: four and eight samples at once, where loops.c has the plain loops.
static void unpack_two(const u8 *s, usize n, u8 *row)
{
    usize full = n / 4;
    for (usize i = 0; i < full; i++) {
        u32 x = s[i];
        x = (x | x << 12) & 0x000f000f;
        x = (x | x << 6) & 0x03030303;
        memcpy(row + 4 * i, &x, 4);
    }
    for (usize k = 4 * full; k < n; k++) row[k] = s[k / 4] >> 2 * (k % 4) & 3;
}

static void unpack_one(const u8 *s, usize n, u8 lower, u8 higher, u8 *row)
{
    usize full = n / 8;
    u64 ones = 0x0101010101010101, base = lower * ones, step = higher - lower;
    for (usize i = 0; i < full; i++) {
        u64 x = s[i] * ones & 0x8040201008040201;
        x = (x + 0x7f7f7f7f7f7f7f7f) >> 7 & ones;
        x = base + x * step;
        memcpy(row + 8 * i, &x, 8);
    }
    for (usize k = 8 * full; k < n; k++) row[k] = s[k / 8] >> k % 8 & 1 ? higher : lower;
}

static const u8 *array(const u8 *file, const u8 *p, const u8 *end, usize n, int per_byte, struct told *told)
{
    usize size = (n + per_byte - 1) / per_byte;
    if ((usize)(end - p) < size) return refuse(told, 12, end - file);
    if (n % per_byte && p[size - 1] >> 8 / per_byte * (n % per_byte)) return refuse(told, 18, p + size - 1 - file);
    return p + size;
}

// The main track read into the row.
static const u8 *read_track(const u8 *file, const u8 *p, const u8 *end, usize n, u8 kind, u8 *row, struct told *told)
{
    const u8 *next;
    switch (kind) {
    case 0:
        next = array(file, p, end, n, 4, told);
        if (next) unpack_two(p, n, row);
        return next;
    case 1: {
        if (p == end) return refuse(told, 12, end - file);
        u8 code = *p;
        if (code > 9 || pairs[code][1] == 0) return refuse(told, 14, p - file);
        u8 lower = pairs[code][0], higher = pairs[code][1];
        next = array(file, p + 1, end, n, 8, told);
        if (!next) return 0;
        unpack_one(p + 1, n, lower, higher, row);
        return plain_list(file, next, end, n, 1, lower, higher, 1, row, told);
    }
    case 2:
    case 3:
        next = plain_list(file, p, end, n, 0, 0, 0, 1, row, told);
        if (next && kind == 3) plain_exchange_row(row, n);
        return next;
    default:
        plain_fill(row, n, kind - 4);
        return plain_list(file, p, end, n, 0, 0, 0, 1, row, told);
    }
}

// The main track checked, and H if it is wanted: of packed bytes, or of what the list is against and the list. No row is made.
static const u8 *check_track(const u8 *file, const u8 *p, const u8 *end, usize n, u8 kind, u8 *row, usize *h, struct told *told)
{
    const u8 *next;
    struct tally tally = {0, 0, 0};
    switch (kind) {
    case 0:
        next = array(file, p, end, n, 4, told);
        if (next && h) *h = plain_heterozygous_packed(p, n);
        return next;
    case 1: {
        if (p == end) return refuse(told, 12, end - file);
        u8 code = *p;
        if (code > 9 || pairs[code][1] == 0) return refuse(told, 14, p - file);
        u8 lower = pairs[code][0], higher = pairs[code][1];
        next = array(file, p + 1, end, n, 8, told);
        if (!next) return 0;
        if (!h) return plain_list(file, next, end, n, 1, lower, higher, 0, row, told);
        tally.bits = p + 1;
        p = count_off_bits(file, next, end, n, lower, higher, &tally, told);
        usize ones = plain_ones(tally.bits, next - tally.bits);
        *h = (higher == 1 ? ones : lower == 1 ? n - ones : 0) + tally.more - tally.less;
        return p;
    }
    case 2:
    case 3:
        if (!h) return plain_list(file, p, end, n, 0, 0, 0, 0, row, told);
        next = count_off_row(file, p, end, n, row, &tally, told);
        *h += tally.more - tally.less;
        return next;
    default:
        if (!h) return plain_list(file, p, end, n, 1, kind - 4, kind - 4, 0, row, told);
        next = count_off_category(file, p, end, n, kind - 4, &tally, told);
        *h = tally.more;
        return next;
    }
}

int plain_body(const u8 *file, usize start, usize end, usize n, u8 type, enum how how, u8 *row, struct phase_track *track, struct told *told)
{
    u8 kind = type & 7;
    const u8 *next;
    if (how == KEEP) next = check_track(file, file + start, file + end, n, kind, row, type & 16 ? &track->h : 0, told);
    else next = read_track(file, file + start, file + end, n, kind, row, told);
    if (next && type & 16) {
        if (how == READ) track->h = plain_heterozygous(row, n);
        next = plain_phase_track(file, next, file + end, track, told);
    }
    if (next && next < file + end) next = refuse(told, 13, next - file);
    if (!next) plain_clear(row, n);
    return next != 0;
}
