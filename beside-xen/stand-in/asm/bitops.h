#pragma once
/* Xen hands over 32-bit words at times, so one works byte by byte (little endian). */
#define BYTE_OF(a) ((volatile unsigned char *)(a))[nr >> 3]
static inline void __set_bit(int nr, volatile void *a) { BYTE_OF(a) |= 1u << (nr & 7); }
static inline void __clear_bit(int nr, volatile void *a) { BYTE_OF(a) &= ~(1u << (nr & 7)); }
static inline void __change_bit(int nr, volatile void *a) { BYTE_OF(a) ^= 1u << (nr & 7); }
static inline int test_bit(int nr, const volatile void *a) { return (((const volatile unsigned char *)a)[nr >> 3] >> (nr & 7)) & 1; }
static inline int __test_and_set_bit(int nr, volatile void *a) { int o = test_bit(nr, a); __set_bit(nr, a); return o; }
static inline int __test_and_clear_bit(int nr, volatile void *a) { int o = test_bit(nr, a); __clear_bit(nr, a); return o; }
static inline int __test_and_change_bit(int nr, volatile void *a) { int o = test_bit(nr, a); __change_bit(nr, a); return o; }
#define set_bit __set_bit
#define clear_bit __clear_bit
#define change_bit __change_bit
#define test_and_set_bit __test_and_set_bit
#define test_and_clear_bit __test_and_clear_bit
#define test_and_change_bit __test_and_change_bit
static inline unsigned int find_next_bit(const unsigned long *a, unsigned int size, unsigned int off)
{ for ( ; off < size; off++ ) if ( test_bit(off, a) ) return off; return size; }
static inline unsigned int find_next_zero_bit(const unsigned long *a, unsigned int size, unsigned int off)
{ for ( ; off < size; off++ ) if ( !test_bit(off, a) ) return off; return size; }
#define find_first_bit(a, s) find_next_bit(a, s, 0)
#define find_first_zero_bit(a, s) find_next_zero_bit(a, s, 0)
static inline unsigned int find_first_set_bit(unsigned long w) { return __builtin_ctzl(w); }
static inline int fls(unsigned int x) { return x ? 32 - __builtin_clz(x) : 0; }
static inline int flsl(unsigned long x) { return x ? 64 - __builtin_clzl(x) : 0; }
static inline int ffs(int x) { return __builtin_ffs(x); }
static inline int ffsl(long x) { return __builtin_ffsl(x); }
#define hweight64(x) __builtin_popcountl(x)
#define hweight32(x) __builtin_popcount(x)
#define hweight16(x) __builtin_popcount((x) & 0xffff)
#define hweight8(x) __builtin_popcount((x) & 0xff)
