# file: credit2
# Where a unit wakes, the best that waits has a processor tickled, and not only the one that woke.
/^csched2_(unit_wake|context_saved)/,/^\}/ s/runq_tickle\(ops, svc, now\)/runq_tickle(ops, runq_elem(svc->rqd->runq.next), now)/
