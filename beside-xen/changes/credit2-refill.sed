# file: credit2
# A refill charges the running units first, and what they hold is taken off the most that it gives.
/^#include "private.h"/ a\
struct csched2_dom;\
void tell_refill(unsigned int domain, long periods, long budget);\
static s_time_t held_by_running(struct csched2_dom *domain, s_time_t now);
/^static void( cf_check)? replenish_domain_budget\(/,/^\}/ {
    s/min\(sdom->budget, sdom->tot_budget\)/min(sdom->budget, sdom->tot_budget - held_by_running(sdom, now))/
    s/s_time_t now;/s_time_t now, before;/
    s/now = NOW\(\);/& before = sdom->next_repl;/
    s/set_timer\(&sdom->repl_timer/tell_refill(sdom->dom->domain_id, (sdom->next_repl - before) \/ CSCHED2_BDGT_REPL_PERIOD, sdom->budget);\n    &/
}
