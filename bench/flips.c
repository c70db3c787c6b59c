// A set of variants flipped where they stand.
#include "walk.h"

static const u8 image[10] = {[1] = 5, [2] = 2, [3] = 9, [5] = 1, [6] = 6, [9] = 3};

static void flip_list(u8 *p, usize n)
{
    usize count = 0;
    for (int shift = 0;; shift += 7) {
        count |= (usize)(*p & 127) << shift;
        if (*p++ < 128) break;
    }
    if (count == 0) return;
    usize groups = (count + 63) / 64;
    plain_exchange_values(p + groups * (n > 256 ? 2 : 1) + groups - 1, count);
}

static void flip_body(u8 *p, usize n, u8 kind)
{
    if (kind == 0) plain_exchange_values(p, n);
    else if (kind == 1) {
        u8 code = *p;
        *p = image[code];
        if (code == 1 || code == 2 || code == 5) plain_complement_bits(p + 1, n);
        flip_list(p + 1 + (n + 7) / 8, n);
    } else flip_list(p, n);
}

static int any_phased(const u8 *file, const struct header *h)
{
    u8 any = 0;
    if (h->mode == 2 || h->half) return 0;
    for (usize b = 0; b * 65536 < h->variants; b++) {
        const u8 *types = file + h->at + b * h->full;
        for (usize i = 0; i < in_block(h, b); i++) any |= types[i];
    }
    return phased(any);
}

struct told plain_flip(u8 *file, usize size, const u8 *set, usize set_size, u8 *work, usize work_size)
{
    struct header h;
    struct file_told header = plain_open(file, size, &h);
    if (header.refusal) return told_of(header);
    if (set_size != (h.variants + 7) / 8 || work_size < h.samples) return (struct told){10, 0, h.variants, 0};
    if (h.variants % 8 && set[set_size - 1] >> h.variants % 8) return (struct told){21, 0, h.variants, 0};
    header = plain_check(file, size, work, work_size);
    if (header.refusal) return told_of(header);
    struct walk w = walk_from(&h);
    struct record r;
    struct phase_track track;
    struct told told;
    int lent = 0, phases = any_phased(file, &h);
    while (next_record(file, &w, &r)) {
        usize v = w.variant - 1;
        int own = set[v / 8] >> v % 8 & 1, turned = own && phased(r.type);
        // H of a phased record that leans is counted over its anchor's row, as it stood before the flip
        if (turned || (phases && !leans(r.type) && next_leans(&w))) plain_pass(file, &w, &r, work, &track, &told);
        if (turned) plain_complement_bits((u8 *)track.bits, track.phased);
        if (!leans(r.type)) lent = own;
        if (lent) flip_body(file + r.start, h.samples, r.type & 7);
        u8 type = r.type;
        if (leans(type) && lent != own) type ^= 1;
        if (own && (type & 5) == 4) type ^= 2;
        if (type != r.type) {
            u8 *types = (u8 *)w.types;
            if (!h.half) types[w.i - 1] = type;
            else types[(w.i - 1) / 2] ^= (type ^ r.type) << 4 * ((w.i - 1) % 2);
        }
    }
    plain_clear(work, h.samples);
    return (struct told){0, 0, 0, 0};
}
