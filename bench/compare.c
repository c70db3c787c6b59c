// The library and the C program on small files of every form, whole and damaged: every reply, place, named variant and buffer must be equal, or nothing is
// timed.
#include "timed.h"
#include "make.h"
#include "measure.h"

static u8 out_1[66000], out_2[66000], phases_1[66000], phases_2[66000], work_1[66000], work_2[66000], set[16000];
static usize counts[26], compared;

static void reset(void)
{
    for (usize i = 0; i < sizeof out_1; i++) out_1[i] = out_2[i] = phases_1[i] = phases_2[i] = work_1[i] = work_2[i] = i * 7;
}

static int buffers_differ(void)
{
    return memcmp(out_1, out_2, sizeof out_1) || memcmp(phases_1, phases_2, sizeof phases_1) || memcmp(work_1, work_2, sizeof work_1);
}

static void same(const char *what, struct told a, struct told b)
{
    if (memcmp(&a, &b, sizeof a) || buffers_differ()) {
        printf("library %lu %lu %lu %lu, C %lu %lu %lu %lu\n", a.refusal, a.place, a.named, a.value, b.refusal, b.place, b.named, b.value);
        fail(what);
    }
    counts[a.refusal]++;
    compared++;
}

static void same_file(const char *what, struct file_told a, struct file_told b)
{
    if (memcmp(&a, &b, sizeof a)) {
        printf("library %lu %lu %lu, C %lu %lu %lu\n", a.refusal, a.place, a.named, b.refusal, b.place, b.named);
        fail(what);
    }
    same(what, (struct told){a.refusal, a.place, a.named, 0}, (struct told){b.refusal, b.place, b.named, 0});
}

// The reply of a call that gave a state.
static struct told told_in(struct rows r)
{
    return (struct told){r.refusal, r.place, r.named, 0};
}

static void same_rows(const char *what, struct rows a, struct rows b)
{
    same(what, told_in(a), told_in(b));
    if (a.variants != b.variants || a.samples != b.samples || a.mode != b.mode || a.form != b.form) fail(what);
    if (a.variant != b.variant || a.start != b.start) fail(what);
    if (a.anchor_refusal != b.anchor_refusal || a.anchor_place != b.anchor_place || a.anchor_named != b.anchor_named) fail(what);
}

// A step of the library: with phases, or without.
static struct rows stepped(struct rows r, struct file f, int phased, usize out_size)
{
    if (!phased) return timed_next_row(r, f.bytes, f.size, out_1, out_size, work_1, sizeof work_1);
    return timed_next_phased_row(r, f.bytes, f.size, out_1, out_size, phases_1, sizeof phases_1, work_1, sizeof work_1);
}

// Each row of a walk through the file, and its phases, are what a read of that variant gives, and past the last one too. The steps with phases and those
// without may be mixed.
static void all_rows(struct file f)
{
    reset();
    struct rows r = timed_start_rows(f.bytes, f.size, work_1, sizeof work_1);
    same_rows("start of rows", r, plain_start_rows(f.bytes, f.size, sizeof work_2));
    for (usize v = 0, started = r.refusal == 0; started && v <= f.variants; v++) {
        int phased = rnd() % 4 != 0;
        r = stepped(r, f, phased, sizeof out_1);
        struct told a = told_in(r), b = plain_read(f.bytes, f.size, v, out_2, sizeof out_2, work_2, sizeof work_2);
        if (phased) plain_read_phases(f.bytes, f.size, v, phases_2, sizeof phases_2, work_2, sizeof work_2);
        // a read clears its work area, a step keeps a row there
        memcpy(work_2, work_1, sizeof work_2);
        same("row", a, b);
    }
}

// A state with one of its numbers changed.
static struct rows bent(struct rows r, struct file f)
{
    usize few = rnd() % 60, x = rnd() % 3 ? few : rnd() % 2 ? rnd() % 200000 : rnd();
    switch (rnd() % 8) {
    case 0: r.variants = x; break;
    case 1: r.samples = x; break;
    case 2: r.variant = x; break;
    case 3: r.start = rnd() % 4 ? rnd() % (f.size + 9) : x; break;
    case 4: r.mode = rnd() % 2 ? 2 : x; break;
    case 5: r.form = x; break;
    case 6: r.anchor_refusal = rnd() % 30; break;
    default: r.anchor_place = x, r.anchor_named = few;
    }
    return r;
}

// Steps over the file from states that no start gave: the same reply, the same state after it, the same buffers.
static void bent_rows(struct file f)
{
    reset();
    for (usize i = 0; i < sizeof work_1; i++) work_1[i] = work_2[i] = i % 4;
    struct rows r = plain_start_rows(f.bytes, f.size, sizeof work_2);
    if (r.refusal) r = (struct rows){.variants = f.variants, .samples = f.samples, .start = rnd() % f.size, .mode = f.bytes[2], .form = f.bytes[11]};
    for (usize k = 0; k < f.variants + 4; k++) {
        int phased = rnd() % 2;
        usize out_size = rnd() % 30 ? sizeof out_1 : rnd() % 300;
        struct rows s = rnd() % 4 ? r : bent(r, f), next = stepped(s, f, phased, out_size);
        same_rows("bent row", next,
                  plain_next_row(s, f.bytes, f.size, out_2, out_size, phased ? phases_2 : 0, sizeof phases_2, work_2, sizeof work_2));
        // one that is refused before its record does not move on, nor would any after it
        if (next.variant != s.variant) r = next;
    }
}

static void all_calls(struct file f, u8 *twin)
{
    usize work_size = rnd() % 30 ? sizeof work_1 : rnd() % (f.samples + 1), variant = rnd() % (f.variants + 3), sample = rnd() % (f.samples + 2);
    reset();
    same_file("header check", timed_header_check(f.bytes, f.size), plain_header_check(f.bytes, f.size));
    same_file("whole-file check", timed_check(f.bytes, f.size, work_1, work_size), plain_check(f.bytes, f.size, work_2, work_size));
    reset();
    same("read", timed_read(f.bytes, f.size, variant, out_1, sizeof out_1, work_1, work_size),
         plain_read(f.bytes, f.size, variant, out_2, sizeof out_2, work_2, work_size));
    reset();
    same("phases", timed_read_phases(f.bytes, f.size, variant, out_1, sizeof out_1, work_1, work_size),
         plain_read_phases(f.bytes, f.size, variant, out_2, sizeof out_2, work_2, work_size));
    reset();
    same("lookup", timed_lookup(f.bytes, f.size, variant, sample, work_1, work_size), plain_lookup(f.bytes, f.size, variant, sample, work_2, work_size));
    reset();
    for (usize i = 0; i < sizeof set; i++) set[i] = rnd();
    usize set_size = (f.variants + 7) / 8;
    if (f.variants % 8 && rnd() % 20) set[set_size - 1] &= (1 << f.variants % 8) - 1;
    memcpy(twin, f.bytes, f.size);
    same("flip", timed_flip(f.bytes, f.size, set, set_size, work_1, work_size), plain_flip(twin, f.size, set, set_size, work_2, work_size));
    if (memcmp(f.bytes, twin, f.size)) fail("flip");
}

static void all_calls_and_rows(struct file f, u8 *twin)
{
    all_rows(f);
    bent_rows(f);
    all_calls(f, twin);
}

static void one_write(usize n)
{
    static u8 categories[70000], anchor[70000];
    usize kind = rnd() % 9, code = kind == 1 ? rnd() % 11 : rnd() % 12 == 0, few = 1 + rnd() % 100;
    for (usize i = 0; i < n; i++) {
        anchor[i] = rnd() % 4;
        categories[i] = rnd() % few ? kind == 2 ? anchor[i] : kind == 3 ? (anchor[i] == 0 ? 2 : anchor[i] == 2 ? 0 : anchor[i]) : kind % 4 : rnd() % 4;
    }
    if (n && rnd() % 20 == 0) categories[rnd() % n] = 4 + rnd() % 9;
    if (n && rnd() % 20 == 0) anchor[rnd() % n] = 4;
    usize anchor_size = kind == 2 || kind == 3 ? n : rnd() % 20 == 0, out_size = rnd() % 20 ? sizeof out_1 : rnd() % (n + 1);
    reset();
    same("write", timed_write_record(categories, n, kind, code, anchor, anchor_size, out_1, out_size),
         plain_write_record(categories, n, kind, code, anchor, anchor_size, out_2, out_size));
}

// A file as it is, then with one or two hits at a time.
static void damaged(struct file f, void (*compare)(struct file f, u8 *twin))
{
    u8 *twin = pages(f.size), *kept = pages(f.size);
    memcpy(kept, f.bytes, f.size);
    for (int round = 0; round < 60; round++) {
        struct file g = f;
        memcpy(f.bytes, kept, f.size);
        for (usize hits = round ? 1 + rnd() % 2 : 0; hits; hits--) {
            usize r = rnd() % 8, header = 12 + 8 + f.variants * 5;
            if (r == 0) g.size = f.size - rnd() % (f.size < 40 ? f.size : 40);
            else if (r == 1) f.bytes[rnd() % 12] = rnd();
            else if (r == 2) f.bytes[rnd() % (header < f.size ? header : f.size)] ^= 1 << rnd() % 8;
            else if (r < 6) f.bytes[f.size - 1 - rnd() % (f.size / 2 + 1)] ^= 1 << rnd() % 8;
            else f.bytes[rnd() % f.size] = rnd();
        }
        compare(g, twin);
    }
}

int main(void)
{
    static const usize samples[9] = {1, 3, 4, 65, 256, 257, 300, 1000, 3000};
    static const u8 forms[4] = {0x40, 0x41, 0x45, 0xc3};
    // first the forms of mode 0x10, then of mode 0x02, then of mode 0x10 with 8-bit types and phases
    for (int form = 0; form < 56; form++)
        for (int k = 0; k < 9; k++) {
            int phased = form >= 40;
            u8 mode = form < 32 || phased ? 0x10 : 0x02, byte = form < 32 ? form % 8 | form / 8 << 6 : form % 4 << 6;
            if (phased) byte = form % 4 | 4 | (form - 40) / 4 << 6;
            usize variants = 1 + rnd() % 40;
            if (form % 4 == 0 && mode == 0x10 && samples[k] > 300) continue;
            damaged(make_mix(samples[k], variants, byte, mode, phased), all_calls_and_rows);
        }
    // two blocks, where a variant's number in its block is not its number in the file
    for (int k = 0; k < 4; k++) damaged(make_header(65537 + rnd() % 9000, forms[k]), all_calls);
    for (int k = 0; k < 4000; k++) one_write(k < 40 ? (usize)k / 10 * 21846 : rnd() % (k % 10 ? 700 : 20000));
    printf("%lu replies of the library equal the C program's; by refusal number:", compared);
    for (int k = 0; k < 26; k++)
        if (counts[k]) printf(" %d: %lu,", k, counts[k]);
    printf(" no other.\n");
    return 0;
}
