// The inner loops, as one writes them in C.
#include "plain.h"

void plain_unpack_categories(const u8 *s, usize n, u8 *row)
{
    usize full = n / 4;
    for (usize i = 0; i < full; i++) {
        u8 b = s[i];
        row[4 * i] = b & 3;
        row[4 * i + 1] = b >> 2 & 3;
        row[4 * i + 2] = b >> 4 & 3;
        row[4 * i + 3] = b >> 6;
    }
    for (usize k = 4 * full; k < n; k++) row[k] = s[k / 4] >> 2 * (k % 4) & 3;
}

void plain_unpack_pair(const u8 *s, usize n, u8 lower, u8 higher, u8 *row)
{
    usize full = n / 8;
    for (usize i = 0; i < full; i++) {
        u8 b = s[i];
        for (int j = 0; j < 8; j++) row[8 * i + j] = b >> j & 1 ? higher : lower;
    }
    for (usize k = 8 * full; k < n; k++) row[k] = s[k / 8] >> k % 8 & 1 ? higher : lower;
}

void plain_copy(const u8 *from, usize n, u8 *to)
{
    for (usize i = 0; i < n; i++) to[i] = from[i];
}

void plain_fill(u8 *row, usize n, u8 category)
{
    for (usize i = 0; i < n; i++) row[i] = category;
}

void plain_clear(u8 *row, usize n)
{
    plain_fill(row, n, 0);
}

void plain_exchange_row(u8 *row, usize n)
{
    for (usize i = 0; i < n; i++) row[i] = row[i] == 0 ? 2 : row[i] == 2 ? 0 : row[i];
}

// The largest byte first, with no exit; the place only where it is above 3.
usize plain_first_above_3(const u8 *row, usize n)
{
    u8 largest = 0;
    for (usize i = 0; i < n; i++) largest = row[i] > largest ? row[i] : largest;
    if (largest <= 3) return n;
    for (usize i = 0; i < n; i++)
        if (row[i] > 3) return i;
    return n;
}

// Kind 5, or a bit that is neither of the kind nor bit 4.
static u8 amiss(u8 type)
{
    return ((type & 0xe8) != 0) | ((type & 7) == 5);
}

int plain_types_amiss(const u8 *types, usize size, int half)
{
    u8 any = 0;
    if (half)
        for (usize i = 0; i < size; i++) any |= amiss(types[i] & 15) | amiss(types[i] >> 4);
    else
        for (usize i = 0; i < size; i++) any |= amiss(types[i]);
    return any;
}

// Of at most 65,536 lengths.
u64 plain_sum_lengths(const u8 *p, usize n, usize width)
{
    u32 small = 0;
    u64 total = 0;
    switch (width) {
    case 1:
        for (usize i = 0; i < n; i++) small += p[i];
        return small;
    case 2:
        for (usize i = 0; i < n; i++) small += p[2 * i] | (u32)p[2 * i + 1] << 8;
        return small;
    case 3:
        for (usize i = 0; i < n; i++) total += p[3 * i] | (u32)p[3 * i + 1] << 8 | (u32)p[3 * i + 2] << 16;
        return total;
    default:
        for (usize i = 0; i < n; i++) total += p[4 * i] | (u32)p[4 * i + 1] << 8 | (u32)p[4 * i + 2] << 16 | (u32)p[4 * i + 3] << 24;
        return total;
    }
}

// 0 and 2 exchanged in the first n packed values: a high bit turns where its low bit is clear.
void plain_exchange_values(u8 *s, usize n)
{
    usize full = n / 4;
    for (usize i = 0; i < full; i++) s[i] ^= ~(s[i] << 1) & 0xaa;
    if (n % 4) s[full] ^= ~(s[full] << 1) & 0xaa & ((1 << 2 * (n % 4)) - 1);
}

void plain_complement_bits(u8 *s, usize n)
{
    usize full = n / 8;
    for (usize i = 0; i < full; i++) s[i] = ~s[i];
    if (n % 8) s[full] ^= (1 << n % 8) - 1;
}
