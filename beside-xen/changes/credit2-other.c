static struct csched2_unit *best_other(struct csched2_runqueue_data *queue, unsigned int processor)
{
    struct csched2_unit *it;
    list_for_each_entry ( it, &queue->runq, runq_elem )
        if ( unit_runnable(it->unit) && cpumask_test_cpu(processor, it->unit->cpu_hard_affinity) && (!has_cap(it) || it->sdom->budget > 0) )
            return it;
    return NULL;
}
