// Steps through the rows of a file, each from a state, which need not be one that a start gave. They are compared and not timed: plain_rows is.
#include "walk.h"

static struct rows reply(struct rows s, usize refusal, usize place, usize named)
{
    s.refusal = refusal;
    s.place = place;
    s.named = named;
    return s;
}

struct rows plain_start_rows(const u8 *file, usize size, usize work_size)
{
    struct header h;
    struct file_told header = plain_open(file, size, &h);
    if (!header.refusal && work_size < h.samples) header = refuse(10, 0, h.variants);
    if (header.refusal) return reply((struct rows){0}, header.refusal, header.place, header.named);
    return (struct rows){.variants = h.variants, .samples = h.samples, .start = h.end, .mode = h.mode, .form = h.form};
}

// Whether the state tells how its anchor was read: accepted, or refused as a record is.
static int anchor_told(u8 refusal)
{
    return refusal == 0 || (refusal >= 12 && refusal <= 18) || (refusal >= 23 && refusal <= 25);
}

static usize byte_at(const u8 *file, usize size, usize at)
{
    return at < size ? file[at] : 0;
}

// The type and the length of the state's record, where a header that says what the state says has them; what is past the file's end counts as 0.
// Gives where the type stands.
static usize look_up(const struct rows *s, const u8 *file, usize size, u8 *type, usize *length)
{
    struct header h = {.mode = s->mode, .variants = s->variants, .samples = s->samples, .form = s->form};
    plain_lay_out(&h);
    *type = 0;
    *length = (h.samples + 3) / 4;
    if (h.mode == 2) return 0;
    usize block = s->variant / 65536, i = s->variant % 65536, types = h.at + block * h.full, place = types + (h.half ? i / 2 : i);
    usize at = types + types_size(&h, in_block(&h, block)) + h.width * i;
    *type = byte_at(file, size, place) >> (h.half ? 4 * (i % 2) : 0) & (h.half ? 15 : 255);
    *length = 0;
    for (usize k = 0; k < h.width; k++) *length |= byte_at(file, size, at + k) << 8 * k;
    return place;
}

// A record that leans finds its anchor's row in the work area, and leaves it there; one that does not leaves its own, nothing but zeros if it is refused.
static struct rows step(struct rows s, const u8 *file, usize start, u8 type, u8 *output, u8 *phases, u8 *work)
{
    static u8 copy[65536];
    struct phase_track track;
    struct told told;
    usize variant = s.variant++, n = s.samples;
    u8 *row = leans(type) ? copy : work;
    if (leans(type) && s.anchor_refusal) return reply(s, s.anchor_refusal, s.anchor_place, s.anchor_named);
    if (leans(type)) plain_copy(work, n, copy);
    else s.anchor_refusal = s.anchor_place = s.anchor_named = 0;
    if (!plain_body(file, start, s.start, n, type, READ, row, &track, &told)) {
        if (!leans(type)) s.anchor_refusal = told.refusal, s.anchor_place = told.place, s.anchor_named = variant;
        return reply(s, told.refusal, told.place, variant);
    }
    plain_copy(row, n, output);
    if (phases) plain_phases(type, &track, row, n, phases);
    return reply(s, 0, 0, 0);
}

struct rows plain_next_row(struct rows s, const u8 *file, usize size, u8 *out, usize out_size, u8 *phases, usize phases_size, u8 *work, usize work_size)
{
    usize m = s.variants, n = s.samples, length, start = s.start;
    u8 type;
    if (m < 1 || m > 16777216) return reply(s, 4, 3, 0);
    if (n < 1 || n > 65536) return reply(s, 4, 7, 0);
    if (out_size < n || (phases && phases_size < n) || work_size < n) return reply(s, 10, 0, m);
    if (s.variant >= m) return reply(s, 11, 0, m);
    usize place = look_up(&s, file, size, &type, &length);
    int follows = leans(type) ? s.variant % 65536 && anchor_told(s.anchor_refusal) : 1;
    if (!follows || plain_types_amiss(&type, 1, 0)) return reply(s, 8, place, s.variant);
    if (start > size || size - start < length) return reply(s, 9, size, m);
    s.start = start + length;
    return step(s, file, start, type, out, phases, work);
}
