static void cut_due(struct rt_unit *unit, s_time_t now)
{
    struct sched_resource *core = unit->unit->res;
    if ( core->curr == unit->unit && timer_is_active(&core->s_timer) )
        set_timer(&core->s_timer, min(core->s_timer.expires, now + unit->cur_budget));
}
