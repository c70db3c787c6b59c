// Whole files: all records in order, one of them.
#include "walk.h"

int plain_pass(const u8 *file, struct walk *w, const struct record *r, u8 *row, struct phase_track *track, struct told *told)
{
    usize n = w->h->samples;
    int own = !leans(r->type) && next_leans(w);
    if (leans(r->type) && phased(r->type) && w->heterozygous == UNKNOWN) w->heterozygous = plain_heterozygous(row, n);
    track->h = w->heterozygous;
    if (!plain_body(file, r->start, r->end, n, r->type, own ? READ : KEEP, row, track, told)) return 0;
    if (own) w->heterozygous = phased(r->type) ? track->h : UNKNOWN;
    return 1;
}

struct file_told plain_check(const u8 *file, usize size, u8 *work, usize work_size)
{
    struct header h;
    struct file_told accepted = plain_open(file, size, &h);
    if (accepted.refusal) return accepted;
    if (work_size < h.samples) return refuse(10, 0, h.variants);
    struct walk w = walk_from(&h);
    struct record r;
    struct told told;
    struct phase_track track;
    while (next_record(file, &w, &r))
        if (!plain_pass(file, &w, &r, work, &track, &told)) return refuse(told.refusal, told.place, w.variant - 1);
    plain_clear(work, h.samples);
    return accepted;
}

// The record of one variant, by the block's offset and the lengths before it.
static struct record find(const u8 *file, const struct header *h, usize variant)
{
    if (h->mode == 2) {
        usize size = (h->samples + 3) / 4, start = h->end + variant * size;
        return (struct record){start, start + size, 0};
    }
    usize block = variant / 65536, i = variant % 65536;
    const u8 *types = file + h->at + block * h->full, *lengths = types + types_size(h, in_block(h, block));
    usize start = number(file + 12 + 8 * block, 8) + plain_sum_lengths(lengths, i, h->width);
    return (struct record){start, start + number(lengths + h->width * i, h->width), type_at(types, i, h->half)};
}

// What one variant's read looks at.
struct one { struct header h; struct record r; struct phase_track track; };

// One variant's record read into the work area, over its anchor's row; each of the two names itself. The sample is a lookup's; 0 is one of every file's.
static struct told read_into(const u8 *file, usize size, usize variant, usize sample, usize output_size, u8 *work, usize work_size, struct one *one)
{
    struct header *h = &one->h;
    struct record *r = &one->r;
    struct told told = told_of(plain_open(file, size, h));
    if (told.refusal) return told;
    if (output_size < h->samples || work_size < h->samples) return (struct told){10, 0, h->variants, 0};
    if (variant >= h->variants) return (struct told){11, 0, h->variants, 0};
    if (sample >= h->samples) return (struct told){11, 0, variant, 0};
    *r = find(file, h, variant);
    if (leans(r->type)) {
        usize i = variant % 65536, anchor = i;
        const u8 *types = file + h->at + variant / 65536 * h->full;
        while (leans(type_at(types, --anchor, h->half))) {}
        struct record a = find(file, h, variant - i + anchor);
        if (!plain_body(file, a.start, a.end, h->samples, a.type, READ, work, &one->track, &told)) {
            told.named = variant - i + anchor;
            return told;
        }
    }
    if (!plain_body(file, r->start, r->end, h->samples, r->type, READ, work, &one->track, &told)) told.named = variant;
    return told;
}

struct told plain_read(const u8 *file, usize size, usize variant, u8 *output, usize output_size, u8 *work, usize work_size)
{
    struct one one;
    struct told told = read_into(file, size, variant, 0, output_size, work, work_size, &one);
    if (told.refusal) return told;
    plain_copy(work, one.h.samples, output);
    plain_clear(work, one.h.samples);
    return told;
}

struct told plain_lookup(const u8 *file, usize size, usize variant, usize sample, u8 *work, usize work_size)
{
    struct one one;
    struct told told = read_into(file, size, variant, sample, work_size, work, work_size, &one);
    if (told.refusal) return told;
    told.value = work[sample];
    plain_clear(work, one.h.samples);
    return told;
}

void plain_phases(u8 type, const struct phase_track *track, const u8 *row, usize n, u8 *phases)
{
    if (phased(type)) plain_put_phases(track, row, n, phases);
    else plain_clear(phases, n);
}

struct told plain_read_phases(const u8 *file, usize size, usize variant, u8 *output, usize output_size, u8 *work, usize work_size)
{
    struct one one;
    struct told told = read_into(file, size, variant, 0, output_size, work, work_size, &one);
    if (told.refusal) return told;
    plain_phases(one.r.type, &one.track, work, one.h.samples, output);
    plain_clear(work, one.h.samples);
    return told;
}

// All variants, each into the output, with its phases if there is a place for them; the anchor's row stays in the work area. Gives a sum over two
// categories of each row, and two phases, 0 if refused.
u64 plain_rows(const u8 *file, usize size, u8 *output, u8 *phases, u8 *work)
{
    struct header h;
    if (plain_open(file, size, &h).refusal) return 0;
    struct walk w = walk_from(&h);
    struct record r;
    struct phase_track track;
    struct told told;
    u64 total = 0;
    while (next_record(file, &w, &r)) {
        if (leans(r.type)) {
            plain_copy(work, h.samples, output);
            if (!plain_body(file, r.start, r.end, h.samples, r.type, READ, output, &track, &told)) return 0;
        } else {
            if (!plain_body(file, r.start, r.end, h.samples, r.type, READ, output, &track, &told)) return 0;
            plain_copy(output, h.samples, work);
        }
        total += output[w.variant % h.samples] + 4 * output[h.samples - 1];
        if (!phases) continue;
        plain_phases(r.type, &track, output, h.samples, phases);
        total += 16 * phases[w.variant % h.samples] + 64 * phases[h.samples - 1];
    }
    plain_clear(work, h.samples);
    return total;
}
