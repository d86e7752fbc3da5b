/* Whether the core idles and a unit waits that may have it, or a better one than its own waits. */
bool rtds_is_to_decide(unsigned int processor)
{
    const struct sched_unit *own = curr_on_cpu(processor);
    const struct rt_unit *best = runq_pick(get_sched_res(processor)->scheduler, cpumask_of(processor), processor);
    return best && (is_idle_unit(own) || compare_unit_priority(rt_unit(own), best) < 0);
}
