# file: core
# Where a vCPU sleeps and a sibling goes on, or wakes in the same moment, its processor idles and the core does not decide anew.
/^void vcpu_block\(/,/^\}/ s/raise_softirq\(SCHEDULE_SOFTIRQ\);/if ( unit_runnable(v->sched_unit) ) v->force_context_switch = true, raise_softirq(SCHED_SLAVE_SOFTIRQ); else &/
/sched_force_context_switch\(/,/^\}/ s/unit_running\(v->sched_unit\) == 1/!unit_runnable(v->sched_unit)/
/^static void sched_switch_units\(/,/^\}/ s/ASSERT\(unit_running\(prev\)\);//
