# file: rt
# A core asks again when the new budget of its unit is used up, where that is sooner. Xen leaves its timer.
/^#include "private.h"/ a\
struct rt_unit;\
static void cut_due(struct rt_unit *unit, s_time_t now);
/repl_timer_handler/,/^\}/ s/rt_update_deadline\(now, svc\);/& cut_due(svc, now);/
