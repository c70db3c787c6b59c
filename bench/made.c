// Files made of records (make.c), in memory.
#include "make.h"
#include "plain.h"

static u8 *put_number(u8 *p, u64 x, usize width)
{
    for (usize i = 0; i < width; i++) p[i] = x >> 8 * i;
    return p + width;
}

// The file of the first variants, in mode 0x10 with that form byte.
struct file make_file(const struct bodies *b, usize variants, u8 form)
{
    usize half = form % 16 < 4, width = form % 4 + 1, blocks = (variants + 65535) / 65536, total = 0;
    for (usize v = 0; v < variants; v++) total += b->lengths[v];
    usize header = 12 + 8 * blocks;
    for (usize k = 0; k < blocks; k++) {
        usize n = variants - 65536 * k < 65536 ? variants - 65536 * k : 65536;
        header += (half ? (n + 1) / 2 : n) + width * n + (form / 64 == 3 ? (n + 7) / 8 : 0);
    }
    struct file f = {pages(header + total), header + total, variants, b->samples};
    u8 *p = f.bytes;
    *p++ = 0x6c;
    *p++ = 0x1b;
    *p++ = 0x10;
    p = put_number(p, variants, 4);
    p = put_number(p, b->samples, 4);
    *p++ = form;
    u8 *offsets = p;
    p += 8 * blocks;
    usize at = header;
    for (usize k = 0; k < blocks; k++) {
        usize from = 65536 * k, n = variants - from < 65536 ? variants - from : 65536;
        offsets = put_number(offsets, at, 8);
        for (usize i = 0; i < n; i++) {
            if (!half) p[i] = b->types[from + i];
            else p[i / 2] |= b->types[from + i] << 4 * (i % 2);
        }
        p += half ? (n + 1) / 2 : n;
        for (usize i = 0; i < n; i++) {
            p = put_number(p, b->lengths[from + i], width);
            at += b->lengths[from + i];
        }
        if (form / 64 == 3) p += (n + 7) / 8;
    }
    memcpy(p, b->bytes, total);
    return f;
}

// A file for the header check alone: kinds drawn at random, lengths of 0 to 7 bytes, and as many bytes after the header, which it does not read.
struct file make_header(usize variants, u8 form)
{
    static const u8 kinds[7] = {0, 1, 2, 3, 4, 6, 7};
    struct bodies b = {1000, variants, pages(8 * variants), pages(variants * sizeof(u32)), pages(variants)};
    for (usize v = 0; v < variants; v++) {
        u64 r = rnd();
        b.types[v] = v % 65536 ? kinds[r % 7] : 0;
        b.lengths[v] = r >> 20 & 7;
    }
    struct file f = make_file(&b, variants, form);
    munmap(b.bytes, 8 * variants + 4096);
    munmap(b.lengths, variants * sizeof(u32) + 4096);
    munmap(b.types, variants + 4096);
    return f;
}

// A small file of any form or mode, for the comparison of replies.
struct file make_mix(usize samples, usize variants, u8 form, u8 mode, int phased)
{
    static struct before before;
    struct bodies b = {samples, variants, pages(variants * (samples * 4 + 16)), pages(variants * sizeof(u32)), pages(variants)};
    u8 *p = b.bytes;
    for (usize v = 0; v < variants; v++) {
        u8 type = mode == 2 ? 0 : pick_type(v, phased), *end = put_record(p, samples, type, &before);
        b.types[v] = type;
        b.lengths[v] = end - p;
        p = end;
    }
    if (mode != 2) return make_file(&b, variants, form);
    usize flags = form / 64 == 3 ? (variants + 7) / 8 : 0, total = p - b.bytes;
    struct file f = {pages(12 + flags + total), 12 + flags + total, variants, samples};
    memcpy(f.bytes, "\x6c\x1b\x02", 3);
    put_number(f.bytes + 3, variants, 4);
    put_number(f.bytes + 7, samples, 4);
    f.bytes[11] = form & 0xc0;
    memcpy(f.bytes + 12 + flags, b.bytes, total);
    return f;
}
