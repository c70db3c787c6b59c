// One record written, in any kind: the list's samples are gathered in one pass, then its parts are written.
#include "plain.h"

static const u8 pairs[10][2] = {[1] = {0, 1}, [2] = {0, 2}, [3] = {0, 3}, [5] = {1, 2}, [6] = {1, 3}, [9] = {2, 3}};

struct entries { usize count; u16 sample[65536]; u8 value[65536]; };

static usize varint_size(usize x)
{
    usize size = 1;
    while (x >= 128) {
        x >>= 7;
        size++;
    }
    return size;
}

static u8 *put_varint(u8 *p, usize x)
{
    while (x >= 128) {
        *p++ = x % 128 + 128;
        x >>= 7;
    }
    *p++ = x;
    return p;
}

static void gather(const u8 *categories, usize n, usize kind, u8 lower, u8 higher, const u8 *anchor, struct entries *e)
{
    usize count = 0;
    for (usize i = 0; i < n; i++) {
        u8 value = categories[i];
        int listed;
        if (kind == 1) listed = value != lower && value != higher;
        else if (kind == 2) listed = value != anchor[i];
        else if (kind == 3) {
            value = value == 0 ? 2 : value == 2 ? 0 : value;
            listed = value != anchor[i];
        } else listed = value != kind - 4;
        e->sample[count] = i;
        e->value[count] = value;
        count += listed;
    }
    e->count = count;
}

static usize list_size(const struct entries *e, usize n)
{
    if (e->count == 0) return 1;
    usize groups = (e->count + 63) / 64, steps = 0;
    for (usize k = 0; k < e->count; k++)
        if (k % 64) steps += varint_size(e->sample[k] - e->sample[k - 1]);
    return varint_size(e->count) + groups * (n > 256 ? 2 : 1) + groups - 1 + (e->count + 3) / 4 + steps;
}

static u8 *put_list(const struct entries *e, usize n, u8 *p)
{
    p = put_varint(p, e->count);
    if (e->count == 0) return p;
    usize groups = (e->count + 63) / 64, wide = n > 256 ? 2 : 1;
    u8 *sizes = p + groups * wide, *values = sizes + groups - 1, *steps = values + (e->count + 3) / 4, *from = steps;
    for (usize k = 0; k < e->count; k++) {
        if (k % 64 == 0) {
            if (k) *sizes++ = steps - from - 63;
            from = steps;
            *p++ = e->sample[k];
            if (wide == 2) *p++ = e->sample[k] >> 8;
        } else steps = put_varint(steps, e->sample[k] - e->sample[k - 1]);
        if (k % 4 == 0) values[k / 4] = e->value[k];
        else values[k / 4] |= e->value[k] << 2 * (k % 4);
    }
    return steps;
}

static void pack_categories(const u8 *categories, usize n, u8 *p)
{
    usize full = n / 4;
    for (usize i = 0; i < full; i++)
        p[i] = categories[4 * i] | categories[4 * i + 1] << 2 | categories[4 * i + 2] << 4 | categories[4 * i + 3] << 6;
    if (n % 4) {
        u8 b = 0;
        for (usize k = 4 * full; k < n; k++) b |= categories[k] << 2 * (k % 4);
        p[full] = b;
    }
}

static void pack_bits(const u8 *categories, usize n, u8 higher, u8 *p)
{
    usize full = n / 8;
    for (usize i = 0; i < full; i++) {
        u8 b = 0;
        for (int j = 0; j < 8; j++) b |= (categories[8 * i + j] == higher) << j;
        p[i] = b;
    }
    if (n % 8) {
        u8 b = 0;
        for (usize k = 8 * full; k < n; k++) b |= (categories[k] == higher) << k % 8;
        p[full] = b;
    }
}

// A writer's reply names no variant: it has no file.
static struct told refuse(usize refusal, usize place)
{
    return (struct told){refusal, place, 0, 0};
}

struct told plain_write_record(const u8 *categories, usize n, usize kind, usize code, const u8 *anchor, usize anchor_size, u8 *output, usize output_size)
{
    static struct entries e;
    if (n < 1 || n > 65536) return refuse(4, 0);
    if (kind > 7 || kind == 5 || (kind == 1 ? code > 9 || pairs[code][1] == 0 : code != 0)) return refuse(19, 0);
    if (anchor_size != (kind == 2 || kind == 3 ? n : 0)) return refuse(10, 0);
    usize i = plain_first_above_3(categories, n);
    if (i < n) return refuse(20, i);
    i = plain_first_above_3(anchor, anchor_size);
    if (i < anchor_size) return refuse(20, i);
    if (kind == 0) {
        usize size = (n + 3) / 4;
        if (size > output_size) return refuse(10, 0);
        pack_categories(categories, n, output);
        return (struct told){0, 0, 0, size};
    }
    u8 lower = 0, higher = 0;
    usize before = 0;
    if (kind == 1) {
        lower = pairs[code][0];
        higher = pairs[code][1];
        before = 1 + (n + 7) / 8;
    }
    gather(categories, n, kind, lower, higher, anchor, &e);
    usize size = before + list_size(&e, n);
    if (size > output_size) return refuse(10, 0);
    if (kind == 1) {
        output[0] = code;
        pack_bits(categories, n, higher, output + 1);
    }
    put_list(&e, n, output + before);
    return (struct told){0, 0, 0, size};
}
