/* Whether the core idles and a unit waits that may have it, or its own has run for the rate limit and has less credit. */
bool credit2_is_to_decide(unsigned int processor)
{
    struct csched2_runqueue_data *queue = c2rqd(processor);
    struct csched2_unit *own = csched2_unit(curr_on_cpu(processor)), *it;
    struct csched2_unit before = *own;
    bool is_better;
    s_time_t limit = MICROSECS(csched2_priv(get_sched_res(processor)->scheduler)->ratelimit_us);
    list_for_each_entry ( it, &queue->runq, runq_elem )
        if ( unit_runnable(it->unit) && cpumask_test_cpu(processor, it->unit->cpu_hard_affinity) && (!has_cap(it) || it->sdom->budget > 0) )
        {
            if ( is_idle_unit(own->unit) )
                return true;
            if ( NOW() - own->unit->state_entry_time < limit )
                return false;
            burn_credits(queue, own, NOW());
            is_better = own->credit < it->credit;
            *own = before;              /* a look charges nothing */
            return is_better;
        }
    return false;
}
