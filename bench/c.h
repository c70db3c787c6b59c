// What the benchmark's C programs use of the C library, declared here since the kit has no C headers. Same types as the library's exports.
#ifndef BENCH_C_H
#define BENCH_C_H
typedef unsigned char u8;
typedef unsigned short u16;
typedef unsigned int u32;
typedef unsigned long u64, usize;
typedef long i64;
void *memcpy(void *restrict, const void *restrict, usize);
void *memset(void *, int, usize);
int memcmp(const void *, const void *, usize);
void *mmap(void *, usize, int, int, int, i64);
int munmap(void *, usize);
int printf(const char *, ...);
int dprintf(int, const char *, ...);
int snprintf(char *, usize, const char *, ...);
int strcmp(const char *, const char *);
long atol(const char *);
int open(const char *, int, ...);
int creat(const char *, unsigned);
i64 read(int, void *, usize);
i64 write(int, const void *, usize);
i64 lseek(int, i64, int);
int close(int);
void exit(int);
struct timespec { i64 seconds, nanoseconds; };
int clock_gettime(int, struct timespec *);
#endif
