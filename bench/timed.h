// The library's exports (crates/timed): a slice is a pointer and a count.
#ifndef BENCH_TIMED_H
#define BENCH_TIMED_H
#include "plain.h"

struct file_told timed_header_check(const u8 *file, usize size);
struct file_told timed_check(const u8 *file, usize size, u8 *work, usize work_size);
struct told timed_read(const u8 *file, usize size, usize variant, u8 *output, usize output_size, u8 *work, usize work_size);
struct told timed_read_phases(const u8 *file, usize size, usize variant, u8 *output, usize output_size, u8 *work, usize work_size);
struct told timed_lookup(const u8 *file, usize size, usize variant, usize sample, u8 *work, usize work_size);
struct rows timed_start_rows(const u8 *file, usize size, const u8 *work, usize work_size);
struct rows timed_next_row(struct rows rows, const u8 *file, usize size, u8 *output, usize output_size, u8 *work, usize work_size);
struct rows timed_next_phased_row(struct rows r, const u8 *file, usize size, u8 *out, usize out_size, u8 *phases, usize phases_size, u8 *work, usize work_size);
struct told timed_flip(u8 *file, usize size, const u8 *set, usize set_size, u8 *work, usize work_size);
struct told timed_write_record(const u8 *categories, usize n, usize kind, usize code, const u8 *anchor, usize anchor_size, u8 *output, usize output_size);
usize timed_unpack_categories(const u8 *s, usize size, usize n, u8 *row, usize row_size);
usize timed_unpack_pair(const u8 *s, usize size, usize n, u8 lower, u8 higher, u8 *row, usize row_size);
void timed_copy(const u8 *from, usize from_size, usize n, u8 *to, usize to_size);
void timed_clear(u8 *row, usize row_size, usize n);
void timed_exchange_row(u8 *row, usize row_size, usize n);
usize timed_first_above_3(const u8 *row, usize row_size);
usize timed_put_list(const u8 *s, usize size, usize at, usize n, u8 *row, usize row_size);
usize timed_bad_in_block(const u8 *types, usize size, usize n, _Bool half);
u64 timed_sum_lengths(const u8 *lengths, usize size, usize width);
void timed_exchange_values(u8 *s, usize size, usize n);
void timed_complement_bits(u8 *s, usize size, usize n);
#endif
