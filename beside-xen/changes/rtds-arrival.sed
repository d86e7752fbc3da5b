# file: rt
# Among equals the unit that came first goes first, and a replenishment does not put it behind the others.
/^#include "private.h"/ a\
static unsigned long arrivals;
/^struct rt_unit \{/ a\
    unsigned long arrived;
/^rt_unit_(insert|wake)|^rt_context_saved/,/^\}/ s/runq_insert\(ops, svc\);/svc->arrived = ++arrivals, &/
/^deadline_queue_insert/,/^\}/ s/compare_unit_priority\(svc, iter_svc\) > 0|\(qelem == .*iter_svc\)\) > 0/& || (qelem == q_elem \&\& svc->priority_level == iter_svc->priority_level \&\& svc->cur_deadline == iter_svc->cur_deadline \&\& svc->arrived < iter_svc->arrived)/
