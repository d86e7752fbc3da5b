
/* A late processor that was asked to schedule leaves that to the first of its siblings that is not late, unless the core meets already. */
void take_over(unsigned int processor)
{
    const struct sched_resource *core = get_sched_res(processor);
    unsigned int sibling;
    if ( !is_late(processor) || core->curr->rendezvous_in_cnt )
        return;
    for_each_cpu ( sibling, core->cpus )
        if ( !is_late(sibling) )
        {
            clear_bit(SCHEDULE_SOFTIRQ, &softirq_pending(processor));
            cpu_raise_softirq(sibling, SCHEDULE_SOFTIRQ);
            return;
        }
}
