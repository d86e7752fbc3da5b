# file: rt
# The pool is looked at after each replenishment of a moment. Xen replenishes all units whose deadlines have come, and then looks.
/^#include "private.h"/ a\
void look(int pool);
/repl_timer_handler\(void \*data\)$/,/^\}/ s/if \( now < svc->cur_deadline \)/if ( !list_empty(\&tmp_replq) ) look(svc->unit->domain->cpupool->cpupool_id);\
        &/
