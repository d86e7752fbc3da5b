# file: credit2
# Among equals the unit that came first goes first, also among those that a reset makes equal.
/^#include "private.h"/ a\
static unsigned long arrivals;
/^struct csched2_unit \{/ a\
    unsigned long arrived;
/^static void runq_insert/,/^\}/ s/svc->credit > iter_svc->credit/& || (svc->credit == iter_svc->credit \&\& svc->arrived < iter_svc->arrived)/
/^csched2_(unit_wake|context_saved)|^unpark_parked_units/,/^\}/ s/runq_insert\(svc\);/svc->arrived = ++arrivals, &/
/^static void reset_credit/,/^\}/ s/SCHED_STAT_CRANK\(credit_reset\);/sort_queue(rqd);/
/^static void reset_credit/ i\
static void sort_queue(struct csched2_runqueue_data *queue)\
{\
    struct csched2_unit *it, *next;\
    LIST_HEAD(old);\
    list_splice_init(\&queue->runq, \&old);\
    list_for_each_entry_safe ( it, next, \&old, runq_elem )\
    {\
        list_del_init(\&it->runq_elem);\
        runq_insert(it);\
    }\
}\

