# file: core
# A core that decides has done so for all of its processors that were asked. In Xen each of them has it decide once more.
/^#include "private.h"/ a\
static void forget_asked(const struct sched_resource *core);
/^static struct sched_unit \*do_schedule\(/,/^\}/ s/sched->do_schedule\(/forget_asked(sr); &/
