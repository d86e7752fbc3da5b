#pragma once
/* One thread of the host runs all, so plain numbers do. */
typedef struct { int number; } atomic_t;
#define ATOMIC_INIT(first) { .number = (first) }
#define read_atomic(place) (*(place))
#define write_atomic(place, value) (*(place) = (value))
static inline int atomic_read(const atomic_t *it) { return it->number; }
static inline void atomic_set(atomic_t *it, int value) { it->number = value; }
static inline void atomic_add(int value, atomic_t *it) { it->number += value; }
static inline void atomic_inc(atomic_t *it) { it->number++; }
static inline void atomic_dec(atomic_t *it) { it->number--; }
static inline int atomic_inc_return(atomic_t *it) { return ++it->number; }
static inline int atomic_dec_return(atomic_t *it) { return --it->number; }
static inline int atomic_dec_and_test(atomic_t *it) { return !--it->number; }
static inline int atomic_cmpxchg(atomic_t *it, int old, int new)
{
    int found = it->number;
    it->number = found == old ? new : found;
    return found;
}
