# file: arinc653
# The present window and its end are kept for each pool. Xen has one of each for all pools.
/^typedef struct a653sched_priv_s/,/^\}/ s/spinlock_t lock;/& unsigned int present_index; s_time_t present_end;/
/^a653sched_do_schedule/,/^\}/ {
    s/static unsigned int sched_index.*//
    s/static s_time_t next_switch_time;//
    s/sched_index/sched_priv->present_index/g
    s/next_switch_time/sched_priv->present_end/g
}
