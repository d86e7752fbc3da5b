# file: credit2
# A refill is told, as Xen makes it: for those who read Xen's own run. No rule is another one.
/^#include "private.h"/ a\
void tell_refill(unsigned int domain, long periods, long budget);
/^static void( cf_check)? replenish_domain_budget\(/,/^\}/ {
    s/s_time_t now;/s_time_t now, before;/
    s/now = NOW\(\);/& before = sdom->next_repl;/
    s/set_timer\(&sdom->repl_timer/tell_refill(sdom->dom->domain_id, (sdom->next_repl - before) \/ CSCHED2_BDGT_REPL_PERIOD, sdom->budget);\n    &/
}
