
/* The moment at which the core's first processor is no longer late. Till then this one waits beside it. */
static s_time_t when_first_is_up(const struct sched_resource *core, spinlock_t **lock, unsigned int processor)
{
    for ( ; is_late(core->master_cpu); *lock = pcpu_schedule_lock_irq(processor) )
    {
        pcpu_schedule_unlock_irq(*lock, processor);
        cpu_relax();
    }
    return NOW();
}
