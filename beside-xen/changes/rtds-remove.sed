# file: rt
# The timer of replenishments goes to another core of the pool where its own leaves. Xen 4.17.5 follows a null pointer there.
/^#include "private.h"/ a\
struct rt_private;\
static cpumask_t *cores_left(const struct rt_private *prv);
/^static void move_repl_timer/,/^\}/ s/get_sched_res\(old_cpu\)->cpupool->res_valid/cores_left(prv)/
/^rt_deinit_pdata/,/^\}/ s/get_sched_res\(cpu\)->cpupool->res_valid/cores_left(prv)/
