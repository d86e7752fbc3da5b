
static s_time_t held_by_running(struct csched2_dom *domain, s_time_t now)
{
    const struct sched_unit *unit;
    s_time_t sum = 0;
    for_each_sched_unit ( domain->dom, unit )
        if ( curr_on_cpu(sched_unit_master(unit)) == unit )
        {
            struct csched2_unit *running = csched2_unit(unit);
            burn_credits(running->rqd, running, now);
            sum += max((s_time_t)0, running->budget);
        }
    return sum;
}
