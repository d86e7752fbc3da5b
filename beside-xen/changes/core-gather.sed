# file: core
# A processor that waits for its siblings starts no vCPU that wakes meanwhile. In Xen it does, and comes back.
/sched_wait_rendezvous_in\(/,/^\}/ s/v && v->force_context_switch/v \&\& (v->force_context_switch = false)/
