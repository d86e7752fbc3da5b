# file: credit2
# The best that waits is one that may have this core, and not the first of the queue in any case.
/^#include "private.h"/ a\
struct csched2_runqueue_data;\
static struct csched2_unit *best_other(struct csched2_runqueue_data *queue, unsigned int processor);
/^csched2_runtime/,/^\}/ {
    s/! list_empty\(runq\)/best_other(rqd, cpu)/
    s/= runq_elem\(runq->next\)/= best_other(rqd, cpu)/
}
