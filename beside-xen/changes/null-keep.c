
/* Whether the core is given to the unit: it is kept for it, is one of the pool, and is allowed. */
static bool is_placed(const struct null_private *pool, unsigned int core, const struct sched_unit *unit)
{
    return unit && pool->kept[core] == unit && get_sched_res(core)->scheduler->sched_data == pool &&
           cpumask_test_cpu(core, unit->cpu_hard_affinity);
}

static bool has_place(const struct null_private *pool, const struct sched_unit *unit)
{
    unsigned int core;
    for_each_online_cpu ( core )
        if ( is_placed(pool, core, unit) )
            return true;
    return false;
}

static bool is_leaving(unsigned int core)
{
    return !cpumask_test_cpu(core, get_sched_res(core)->cpupool->cpu_valid);
}

/* The core's own unit where it may run, or the earliest that waits where the core is given to none. */
static struct sched_unit *unit_for(const struct null_private *pool, unsigned int core)
{
    struct sched_unit *own = pool->kept[core];
    const struct null_unit *it;
    if ( is_leaving(core) )
        return NULL;
    if ( is_placed(pool, core, own) )
        return unit_runnable(own) ? own : NULL;
    list_for_each_entry ( it, &pool->waitq, waitq_elem )
        if ( unit_runnable(it->unit) && !it->unit->is_running && !has_place(pool, it->unit) &&
             cpumask_test_cpu(core, it->unit->cpu_hard_affinity) )
            return it->unit;
    return NULL;
}

static void forget_unit(struct null_private *pool, const struct sched_unit *unit)
{
    unsigned int core;
    for ( core = 0; core < NR_CPUS; core++ )
        if ( pool->kept[core] == unit )
            pool->kept[core] = NULL;
}

static struct sched_unit *take_unit(struct null_private *pool, unsigned int core)
{
    struct sched_unit *unit = unit_for(pool, core);
    if ( is_leaving(core) )
        pool->kept[core] = NULL;
    if ( !unit )
        return NULL;
    forget_unit(pool, unit);
    pool->kept[core] = unit;
    list_del_init(&null_unit(unit)->waitq_elem);
    sched_set_res(unit, get_sched_res(core));
    return unit;
}

/* Whether the core idles and a unit waits that it is to take. */
bool null_is_to_decide(unsigned int processor)
{
    return is_idle_unit(curr_on_cpu(processor)) && unit_for(get_sched_res(processor)->scheduler->sched_data, processor);
}
