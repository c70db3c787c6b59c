// The header, checked.
#include "walk.h"

void plain_lay_out(struct header *h)
{
    h->half = h->form % 16 < 4;
    h->width = h->form % 4 + 1;
    h->stored = h->form / 64 == 3;
    h->at = 12 + 8 * ((h->variants + 65535) / 65536);
    h->full = block_size(h, 65536);
    if (h->mode == 2) h->end = 12 + (h->stored ? (h->variants + 7) / 8 : 0);
    else h->end = h->at + h->variants / 65536 * h->full + block_size(h, h->variants % 65536);
}

static void fields(const u8 *file, struct header *h)
{
    h->mode = file[2];
    h->variants = number(file + 3, 4);
    h->samples = number(file + 7, 4);
    h->form = file[11];
    plain_lay_out(h);
}

// The first type of a block that is not allowed, past the last if there is none.
static usize bad_in_block(const u8 *types, usize n, const struct header *h)
{
    if (leans(type_at(types, 0, h->half))) return 0;
    if (!plain_types_amiss(types, types_size(h, n), h->half)) return n;
    for (usize i = 0; i < n; i++) {
        u8 type = type_at(types, i, h->half);
        if (plain_types_amiss(&type, 1, 0)) return i;
    }
    return n;
}

struct file_told plain_open(const u8 *file, usize size, struct header *h)
{
    if (size < 12) return refuse(1, size, 0);
    if (file[0] != 0x6c || file[1] != 0x1b) return refuse(2, 0, 0);
    fields(file, h);
    if (h->mode != 2 && h->mode != 0x10) return refuse(3, 2, 0);
    if (h->variants < 1 || h->variants > 16777216) return refuse(4, 3, 0);
    if (h->samples < 1 || h->samples > 65536) return refuse(4, 7, 0);
    if (h->form % 64 >= (h->mode == 2 ? 1 : 8)) return refuse(5, 11, h->variants);
    if (size < h->end) return refuse(6, size, h->variants);
    struct file_told accepted = {0, 0, 0, h->mode, h->variants, h->samples, h->form};
    if (h->mode == 2) {
        if (h->stored && h->variants % 8 && file[h->end - 1] >> h->variants % 8) return refuse(7, h->end - 1, h->variants);
        return h->end + h->variants * ((h->samples + 3) / 4) == size ? accepted : refuse(9, size, h->variants);
    }
    usize blocks = (h->variants + 65535) / 65536, last = h->at + (blocks - 1) * h->full, n = in_block(h, blocks - 1);
    usize types_end = last + types_size(h, n);
    if (h->half && n % 2 && file[types_end - 1] >> 4) return refuse(7, types_end - 1, h->variants);
    if (h->stored && n % 8 && file[h->end - 1] >> n % 8) return refuse(7, h->end - 1, h->variants);
    for (usize b = 0; b < blocks; b++) {
        usize i = bad_in_block(file + h->at + b * h->full, in_block(h, b), h);
        if (i < in_block(h, b)) return refuse(8, h->at + b * h->full + (h->half ? i / 2 : i), 65536 * b + i);
    }
    usize start = h->end;
    for (usize b = 0; b < blocks; b++) {
        if (number(file + 12 + 8 * b, 8) != start) return refuse(9, 12 + 8 * b, h->variants);
        start += plain_sum_lengths(file + h->at + b * h->full + types_size(h, in_block(h, b)), in_block(h, b), h->width);
    }
    return start == size ? accepted : refuse(9, size, h->variants);
}

struct file_told plain_header_check(const u8 *file, usize size)
{
    struct header h;
    return plain_open(file, size, &h);
}
