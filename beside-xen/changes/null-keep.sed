# file: null
# A core takes the earliest unit that waits, and is kept for it. Xen gives a unit its own first processor, also while it sleeps, and takes it back with the core or the pin.
/^#include "private.h"/ a\
struct null_private;\
static struct sched_unit *take_unit(struct null_private *pool, unsigned int core);\
static void forget_unit(struct null_private *pool, const struct sched_unit *unit);
/^struct null_private \{/ a\
    struct sched_unit *kept[NR_CPUS];
/null_unit_insert\(/,/^\}/ {
    s/likely\(npc->unit == NULL\)/false/
    s/cpumask_intersects\(.*\) \)/false )/
}
/null_unit_remove\(/,/^\}/ {
    s/^ out:/& forget_unit(prv, unit);/
    s/^    unit_deassign\(prv, unit\);/    if ( ((struct null_pcpu *)get_sched_res(sched_unit_master(unit))->sched_priv)->unit )\n    &/
}
/null_unit_wake\(/,/^\}/ {
    s/unlikely\(!list_empty\(&nvc->waitq_elem\)\)/(list_del_init(\&nvc->waitq_elem), false)/
    s/npc->unit == NULL/false/
    s/cpumask_raise_softirq\(/if ( false ) &/
}
/null_unit_migrate\(/,/^\}/ s/npc->unit == NULL/false/
/null_schedule\(/,/^\}/ {
    s/prev->next_task = npc->unit/prev->next_task = take_unit(prv, sched_cpu)/
    s/unlikely\(prev->next_task == NULL\)/false/
}
