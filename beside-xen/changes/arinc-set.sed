# file: arinc653
# A frame that is set takes force at once. Xen begins it when it decides the next time.
/^arinc653_sched_set/,/^\}/ s/sched_priv->next_major_frame = NOW\(\);/& for_each_online_cpu ( i ) if ( get_sched_res(i)->scheduler == ops ) cpu_raise_softirq(i, SCHEDULE_SOFTIRQ);/
