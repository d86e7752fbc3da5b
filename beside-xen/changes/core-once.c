
static void forget_asked(const struct sched_resource *core)
{
    unsigned int processor;
    for_each_cpu ( processor, core->cpus )
        clear_bit(SCHEDULE_SOFTIRQ, &softirq_pending(processor));
}
