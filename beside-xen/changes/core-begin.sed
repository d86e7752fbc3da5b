# file: core
# A core that is to decide meets as soon as one of its processors is not late. In Xen the one that was asked has to be back first.
/^#include "private.h"/ a\
extern bool is_late(unsigned int processor);
