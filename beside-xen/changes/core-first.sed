# file: core
# A core decides on its first processor. In Xen the processor that arrives last decides, also where the first one is late.
/^#include "private.h"/ a\
extern bool is_late(unsigned int processor);\
static s_time_t when_first_is_up(const struct sched_resource *core, spinlock_t **lock, unsigned int processor);
/sched_wait_rendezvous_in\(/,/^\}/ s/next = do_schedule/prev->rendezvous_in_cnt = 1, now = when_first_is_up(sr, lock, cpu), prev->rendezvous_in_cnt = 0, &/
