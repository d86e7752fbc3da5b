# file: core
# A unit that waits keeps its place where a core leaves its pool. Xen takes it out of the queue and puts it in anew.
/^int cpu_disable_scheduler\(/,/^\}/ s/^( *)if \( unit->res != get_sched_res\(cpu\) \)/\1if ( unit->res == get_sched_res(cpu) \&\& !unit->is_running )\n\1{\n\1    struct sched_resource *other = sched_pick_resource(unit_scheduler(unit), unit);\n\1    unit_schedule_unlock_irqrestore(lock, flags, unit);\n\1    sched_set_res(unit, other);\n\1    continue;\n\1}\n&/
