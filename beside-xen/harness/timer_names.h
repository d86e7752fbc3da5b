/* Xen's timer.c alone is compiled with these names, so that the harness may have its timers or Xen's. */
#define init_timer xen_init_timer
#define set_timer xen_set_timer
#define stop_timer xen_stop_timer
#define migrate_timer xen_migrate_timer
#define kill_timer xen_kill_timer
#define open_softirq open_timer_softirq
