
/* Whether the unit of the present window may run, and is not the core's own. */
bool arinc653_is_to_decide(unsigned int processor)
{
    const struct scheduler *ops = get_sched_res(processor)->scheduler;
    const a653sched_priv_t *pool = SCHED_PRIV(ops);
    s_time_t at, end = 0;
    unsigned int place = 0;
    const struct sched_unit *unit;
    if ( !pool->num_schedule_entries )
        return false;
    at = (NOW() - pool->next_major_frame + pool->major_frame) % pool->major_frame;
    while ( place < pool->num_schedule_entries && at >= end + pool->schedule[place].runtime )
        end += pool->schedule[place++].runtime;
    unit = place < pool->num_schedule_entries ? pool->schedule[place].unit : NULL;
    return unit && AUNIT(unit)->awake && unit_runnable(unit) && get_sched_res(processor)->curr != unit;
}
