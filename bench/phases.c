// The phase track of one record: heterozygous calls counted, the track checked, its phases put into a row of bytes.
#include "plain.h"

// By 255 at a time, so that a byte counts them and the compiler makes a vector loop.
usize plain_heterozygous(const u8 *row, usize n)
{
    usize count = 0;
    for (usize from = 0; from < n; from += 255) {
        usize to = n - from < 255 ? n : from + 255;
        u8 few = 0;
        for (usize i = from; i < to; i++) few += row[i] == 1;
        count += few;
    }
    return count;
}

// Of n packed categories, 32 at once: a low bit whose high bit is clear. The unused bits of the last byte are zero.
usize plain_heterozygous_packed(const u8 *s, usize n)
{
    usize size = (n + 3) / 4, count = 0, i = 0;
    for (; i + 8 <= size; i += 8) {
        u64 x;
        memcpy(&x, s + i, 8);
        count += __builtin_popcountl(x & ~(x >> 1) & 0x5555555555555555);
    }
    for (; i < size; i++) count += __builtin_popcount(s[i] & ~(s[i] >> 1) & 0x55);
    return count;
}

usize plain_ones(const u8 *s, usize size)
{
    usize count = 0, i = 0;
    for (; i + 8 <= size; i += 8) {
        u64 x;
        memcpy(&x, s + i, 8);
        count += __builtin_popcountl(x);
    }
    for (; i < size; i++) count += __builtin_popcount(s[i]);
    return count;
}

static const u8 *refuse(struct told *told, usize refusal, usize place)
{
    told->refusal = refusal;
    told->place = place;
    return 0;
}

static const u8 *bits(const u8 *file, const u8 *p, const u8 *end, usize n, struct told *told)
{
    usize size = (n + 7) / 8;
    if ((usize)(end - p) < size) return refuse(told, 12, end - file);
    if (n % 8 && p[size - 1] >> n % 8) return refuse(told, 18, p + size - 1 - file);
    return p + size;
}

const u8 *plain_phase_track(const u8 *file, const u8 *p, const u8 *end, struct phase_track *track, struct told *told)
{
    if (p == end) return refuse(told, 12, end - file);
    track->first = p;
    track->stored = *p & 1;
    track->bits = bits(file, p, end, track->stored ? 1 + track->h : 1, told);
    if (!track->bits) return 0;
    track->phased = track->stored ? plain_ones(p, track->bits - p) - 1 : track->h;
    return bits(file, track->bits, end, track->phased, told);
}

static usize bit(const u8 *s, usize k)
{
    return s[k / 8] >> k % 8 & 1;
}

// Eight samples at once are looked at, and only the heterozygous among them one by one, while phase bits are left.
void plain_put_phases(const struct phase_track *track, const u8 *row, usize n, u8 *phases)
{
    usize h = 1, p = 0;
    plain_clear(phases, n);
    for (usize i = 0; p < track->phased; i += 8) {
        u64 x = 0;
        memcpy(&x, row + i, n - i < 8 ? n - i : 8);
        for (x &= ~(x >> 1) & 0x0101010101010101; x && p < track->phased; x &= x - 1) {
            usize on = track->stored ? bit(track->first, h++) : 1;
            phases[i + __builtin_ctzl(x) / 8] = on ? 1 + bit(track->bits, p) : 0;
            p += on;
        }
    }
}
