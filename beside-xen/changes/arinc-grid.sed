# file: arinc653
# Frames keep their grid from the moment at which they were set. In Xen a late decision moves what follows.
/^a653sched_do_schedule/,/^\}/ {
    s/= now \+ sched_priv->major_frame/+= ((now - sched_priv->next_major_frame) \/ sched_priv->major_frame + 1) * sched_priv->major_frame/
    s/= now \+ sched_priv->schedule\[0\].runtime/= sched_priv->next_major_frame - sched_priv->major_frame + sched_priv->schedule[0].runtime/
    s/^    else$/    if ( sched_priv->num_schedule_entries >= 1 )/
}
