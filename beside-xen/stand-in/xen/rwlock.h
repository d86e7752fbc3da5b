#pragma once
#include <xen/spinlock.h>
/* One thread of the host runs all, so a lock that cannot be had at once is a fault. */
typedef struct { int readers, writers; } rwlock_t;
#define RW_LOCK_UNLOCKED { 0, 0 }
#define DEFINE_RWLOCK(name) rwlock_t name
#define rwlock_init(lock) ((lock)->readers = (lock)->writers = 0)
#define read_lock(lock) ({ BUG_ON((lock)->writers); (lock)->readers++; })
#define read_unlock(lock) ((lock)->readers--)
#define write_lock(lock) ({ BUG_ON((lock)->writers || (lock)->readers); (lock)->writers = 1; })
#define write_unlock(lock) ((lock)->writers = 0)
#define read_trylock(lock) ({ bool free_ = !(lock)->writers; (lock)->readers += free_; free_; })
#define read_lock_irqsave(lock, flags) ({ (flags) = 0; read_lock(lock); })
#define read_unlock_irqrestore(lock, flags) ({ (void)(flags); read_unlock(lock); })
#define write_lock_irqsave(lock, flags) ({ (flags) = 0; write_lock(lock); })
#define write_unlock_irqrestore(lock, flags) ({ (void)(flags); write_unlock(lock); })
#define rw_is_write_locked(lock) ((lock)->writers)
#define rw_is_locked(lock) ((lock)->writers || (lock)->readers)
