
static cpumask_t *cores_left(const struct rt_private *prv)
{
    static cpumask_t left;
    unsigned int processor;
    cpumask_clear(&left);
    for_each_online_cpu ( processor )
        if ( get_sched_res(processor)->scheduler->sched_data == prv && get_sched_res(processor)->master_cpu == processor )
            cpumask_set_cpu(processor, &left);
    return &left;
}
