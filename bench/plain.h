// The same work in plain C: the format of document 01, with the phases of document 02, read, checked, written and flipped, with every refusal number,
// place and named variant. It is what the library is timed against, and every answer of the library that is timed is compared with its answer.
#ifndef BENCH_PLAIN_H
#define BENCH_PLAIN_H
#include "c.h"

struct told { usize refusal, place, named, value; };
struct file_told { usize refusal, place, named, mode, variants, samples, form; };
// The state of a walk through all rows, with its anchor's refusal, and the refusal, place and named variant of the call that gave it.
struct rows { usize variants, samples, variant, start, anchor_place, anchor_named, place, named; u8 mode, form, anchor_refusal, refusal; };

// The inner loops (loops.c).
void plain_unpack_categories(const u8 *s, usize n, u8 *row);
void plain_unpack_pair(const u8 *s, usize n, u8 lower, u8 higher, u8 *row);
void plain_copy(const u8 *from, usize n, u8 *to);
void plain_clear(u8 *row, usize n);
void plain_fill(u8 *row, usize n, u8 category);
void plain_exchange_row(u8 *row, usize n);
usize plain_first_above_3(const u8 *row, usize n);
int plain_types_amiss(const u8 *types, usize size, int half);
u64 plain_sum_lengths(const u8 *lengths, usize n, usize width);
void plain_exchange_values(u8 *s, usize n);
void plain_complement_bits(u8 *s, usize n);

// The phase track of a record (phases.c): where its first bit and its phase bits stand, and how many of these it has. H calls are heterozygous.
struct phase_track { const u8 *first, *bits; usize h, phased; int stored; };

usize plain_heterozygous(const u8 *row, usize n);
usize plain_heterozygous_packed(const u8 *s, usize n);
usize plain_ones(const u8 *s, usize size);
const u8 *plain_phase_track(const u8 *file, const u8 *p, const u8 *end, struct phase_track *track, struct told *told);
void plain_put_phases(const struct phase_track *track, const u8 *row, usize n, u8 *phases);

// A record's list and its body (records.c). NULL or 0: refused, with the number and place in `told`; whose record it is, the caller knows.
//   READ   the row becomes the record's; one that leans finds its anchor's there
//   KEEP   the record is only checked, and the row stays
// `track` has what the phase track gave; where a record is only checked that leans and is phased, its H is the anchor's before.
enum how { READ, KEEP };
const u8 *plain_list(const u8 *file, const u8 *p, const u8 *end, usize n, int pair, u8 lower, u8 higher, int store, u8 *row, struct told *told);
int plain_body(const u8 *file, usize start, usize end, usize n, u8 type, enum how how, u8 *row, struct phase_track *track, struct told *told);

// The calls (header.c, files.c, rows.c, flips.c, writing.c). A step has phases only if there is a place for them.
struct file_told plain_header_check(const u8 *file, usize size);
struct file_told plain_check(const u8 *file, usize size, u8 *work, usize work_size);
struct told plain_read(const u8 *file, usize size, usize variant, u8 *output, usize output_size, u8 *work, usize work_size);
struct told plain_flip(u8 *file, usize size, const u8 *set, usize set_size, u8 *work, usize work_size);
struct told plain_write_record(const u8 *categories, usize n, usize kind, usize code, const u8 *anchor, usize anchor_size, u8 *output, usize output_size);
struct told plain_read_phases(const u8 *file, usize size, usize variant, u8 *output, usize output_size, u8 *work, usize work_size);
struct told plain_lookup(const u8 *file, usize size, usize variant, usize sample, u8 *work, usize work_size);
struct rows plain_start_rows(const u8 *file, usize size, usize work_size);
struct rows plain_next_row(struct rows s, const u8 *file, usize size, u8 *out, usize out_size, u8 *phases, usize phases_size, u8 *work, usize work_size);
u64 plain_rows(const u8 *file, usize size, u8 *output, u8 *phases, u8 *work);
#endif
