static void decide_anew(struct domain *domain)
{
    const struct sched_unit *unit;
    for_each_sched_unit ( domain, unit )
        if ( unit->is_running )
            cpu_raise_softirq(sched_unit_master(unit), SCHEDULE_SOFTIRQ);
}
