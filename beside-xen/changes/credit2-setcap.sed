# file: credit2
# A cap that is set begins anew: budget, refills and the running units, also where the domain has a cap, and where it loses it.
/^#include "private.h"/ a\
extern bool is_cap_given;\
static void decide_anew(struct domain *domain);
/^csched2_dom_cntl/,/^\}/ {
    s/else if \( sdom->cap != 0 \)/else if ( sdom->cap != 0 || is_cap_given )/
    s/if \( sdom->cap == 0 \)/if ( sdom->cap == 0 || is_cap_given )/
    s/sdom->cap = 0;/& decide_anew(d);/
}
