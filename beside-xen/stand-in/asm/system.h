#pragma once
/* One thread of the host runs all: barriers and atomic forms are plain. */
#define mb() barrier()
#define rmb() barrier()
#define wmb() barrier()
#define smp_mb() barrier()
#define smp_rmb() barrier()
#define smp_wmb() barrier()
#define smp_mb__before_atomic() barrier()
#define smp_mb__after_atomic() barrier()
#define local_irq_disable() do { } while (0)
#define local_irq_enable() do { } while (0)
#define local_irq_save(f) ((f) = 0)
#define local_irq_restore(f) ((void)(f))
#define local_irq_is_enabled() 0
#define xchg(p, v) ({ typeof(*(p)) o_ = *(p); *(p) = (v); o_; })
#define cmpxchg(p, o, n) ({ typeof(*(p)) s_ = *(p); if ( s_ == (o) ) *(p) = (n); s_; })
