// The inner loops, each against the plain C loop, on rows of 2,000 and 20,000 samples and on a block's arrays: they stay in the processor's caches.
// A line for each: what, of what, billions a second by the library and by C.
#include "timed.h"
#include "make.h"
#include "measure.h"

enum { TIMES = 50, LISTS = 300 };

static u8 packed[65536], bits[65536], row[65536], other[65536], types[2][65536], lengths[65536], lists[1 << 22];
static usize n, width, half, starts[LISTS + 1], entries;
static volatile u64 sink;

#define PAIR(name, ours, plain)                                                    \
    static void ours_##name(void *on) { for (int i = 0; i < TIMES; i++) { ours; } } \
    static void plain_##name##_(void *on) { for (int i = 0; i < TIMES; i++) { plain; } }

PAIR(two, timed_unpack_categories(packed, sizeof packed, n, row, sizeof row), plain_unpack_categories(packed, n, other))
PAIR(one, timed_unpack_pair(bits, sizeof bits, n, 0, 2, row, sizeof row), plain_unpack_pair(bits, n, 0, 2, other))
PAIR(copy, timed_copy(packed, sizeof packed, n, row, sizeof row), plain_copy(packed, n, other))
PAIR(clear, timed_clear(row, sizeof row, n), plain_clear(other, n))
PAIR(exchange, timed_exchange_row(row, sizeof row, n), plain_exchange_row(other, n))
PAIR(largest, sink += timed_first_above_3(row, n), sink += plain_first_above_3(other, n))
PAIR(values, timed_exchange_values(row, sizeof row, n), plain_exchange_values(other, n))
PAIR(complement, timed_complement_bits(row, sizeof row, n), plain_complement_bits(other, n))
PAIR(types, sink += timed_bad_in_block(types[half], 65536, 65536, half), sink += plain_types_amiss(types[half], half ? 32768 : 65536, half))
PAIR(sums, sink += timed_sum_lengths(lengths, 65536, width), sink += plain_sum_lengths(lengths, 65536 / width, width))

static void ours_lists(void *on)
{
    for (usize k = 0; k < LISTS; k++) timed_put_list(lists, starts[k + 1], starts[k], n, row, sizeof row);
}

static void plain_lists_(void *on)
{
    struct told told;
    for (usize k = 0; k < LISTS; k++) plain_list(lists, lists + starts[k], lists + starts[k + 1], n, 0, 0, 0, 1, other, &told);
}

static void line(const char *what, const char *unit, double amount, work *ours, work *plain)
{
    work *works[] = {ours, plain};
    void *on[] = {0, 0};
    double least[2];
    take_turns(works, on, 2, 400, 0.15, least);
    printf("%s\t%s\t%.3f\t%.3f\n", what, unit, amount / least[0] / 1e9, amount / least[1] / 1e9);
}

static void same(const char *what)
{
    if (memcmp(row, other, sizeof row)) fail(what);
}

static void rows_of(usize samples)
{
    char what[80];
    n = samples;
    for (usize i = 0; i < sizeof packed; i++) packed[i] = bits[i] = rnd();
    if (n % 4) packed[n / 4] &= (1 << 2 * (n % 4)) - 1;
    if (n % 8) bits[n / 8] &= (1 << n % 8) - 1;
    memset(row, 9, sizeof row);
    memset(other, 9, sizeof other);
#define LINE(text, unit, amount, name)                                        \
    snprintf(what, sizeof what, text ", N = %lu", n);                           \
    line(what, unit, (double)(amount) * TIMES, ours_##name, plain_##name##_); \
    ours_##name(0);                                                           \
    plain_##name##_(0);
    // both are done as often, so the two rows stay equal
    LINE("unpack two bits", "output", n, two) same("unpack two bits");
    LINE("exchange of 0 and 2 in a row", "row", n, exchange) same("exchange in a row");
    plain_unpack_categories(packed, n, row), plain_unpack_categories(packed, n, other);
    if (timed_first_above_3(row, n) != n) fail("largest byte");
    row[n - 1] = 4;
    if (timed_first_above_3(row, n) != n - 1) fail("largest byte");
    row[n - 1] = other[n - 1];
    LINE("largest byte", "row", n, largest)
    LINE("unpack one bit to two categories", "output", n, one) same("unpack one bit");
    LINE("copy of a row", "row", n, copy) same("copy");
    LINE("flip of packed categories", "bytes", n / 4, values) same("flip of packed categories");
    LINE("complement of packed bits", "bytes", n / 8, complement) same("complement of packed bits");
    LINE("clear of a row", "row", n, clear) same("clear");
}

static usize put_varint(u8 *p, usize x)
{
    usize i = 0;
    while (x >= 128) {
        p[i++] = x % 128 + 128;
        x >>= 7;
    }
    p[i++] = x;
    return i;
}

// Lists of `count` entries over n samples. Each second one has the samples of the one before it and other values, and what it leaves in the row no
// list before it has, so that all may be stored in one row time and again.
static void lists_of(usize samples, usize count)
{
    char what[80];
    usize at = 0, most = 2 * (samples - count) / count;
    static usize chosen[65536];
    n = samples;
    entries = LISTS * count;
    for (usize list = 0; list < LISTS; list++) {
        for (usize sample = rnd() % most, k = 0; k < count && list % 2 == 0; k++) {
            chosen[k] = sample;
            sample += 1 + rnd() % most;
            if (sample >= n - (count - k)) sample = chosen[k] + 1;
        }
        starts[list] = at;
        usize groups = (count + 63) / 64;
        at += put_varint(lists + at, count);
        u8 *heads = lists + at, *sizes = heads + 2 * groups, *values = sizes + groups - 1, *steps = values + (count + 3) / 4, *from = steps;
        memset(values, 0, (count + 3) / 4);
        for (usize k = 0; k < count; k++) {
            if (k % 64 == 0) {
                if (k) *sizes++ = steps - from - 63;
                from = steps;
                heads[k / 64 * 2] = chosen[k];
                heads[k / 64 * 2 + 1] = chosen[k] >> 8;
            } else steps += put_varint(steps, chosen[k] - chosen[k - 1]);
            values[k / 4] |= (list % 2 ? 1 + chosen[k] % 2 : 3) << 2 * (k % 4);
        }
        at = steps - lists;
    }
    starts[LISTS] = at;
    memset(row, 0, sizeof row);
    memset(other, 0, sizeof other);
    struct told told;
    for (usize k = 0; k < LISTS; k++) {
        if (timed_put_list(lists, starts[k + 1], starts[k], n, row, sizeof row) != starts[k + 1]) fail("list");
        if (plain_list(lists, lists + starts[k], lists + starts[k + 1], n, 0, 0, 0, 1, other, &told) != lists + starts[k + 1]) fail("list in C");
        same("list");
    }
    snprintf(what, sizeof what, "list walk, %lu of %lu samples", count, n);
    line(what, "G entries", entries, ours_lists, plain_lists_);
}

int main(void)
{
    static const u8 kinds[7] = {0, 1, 2, 3, 4, 6, 7};
    rows_of(2000);
    rows_of(20000);
    for (usize i = 0; i < 65536; i++) {
        types[1][i] = kinds[rnd() % 7] | kinds[rnd() % 7] << 4;
        types[0][i] = kinds[rnd() % 7];
        lengths[i] = rnd();
    }
    types[1][0] &= 0xf0;
    types[0][0] = 0;
    for (int four = 1; four >= 0; four--) {
        half = four;
        if (timed_bad_in_block(types[half], 65536, 65536, half) != 65536 || plain_types_amiss(types[half], half ? 32768 : 65536, half)) fail("types");
        line(half ? "types of a block, 4 bits" : "types of a block, 8 bits", "bytes", (half ? 32768.0 : 65536.0) * TIMES, ours_types, plain_types_);
    }
    for (width = 1; width <= 4; width++) {
        char what[80];
        if (timed_sum_lengths(lengths, 65536, width) != plain_sum_lengths(lengths, 65536 / width, width)) fail("sum of lengths");
        snprintf(what, sizeof what, "sum of lengths, %lu byte%s each", width, width > 1 ? "s" : "");
        line(what, "bytes", 65536.0 * TIMES, ours_sums, plain_sums_);
    }
    lists_of(2000, 30);
    lists_of(2000, 200);
    lists_of(20000, 200);
    lists_of(20000, 1500);
    return 0;
}
