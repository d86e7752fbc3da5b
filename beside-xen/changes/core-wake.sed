# file: core
# A vCPU that wakes while its siblings run starts at once, also where its processor is late. In Xen it starts when that is back.
/^#include "private.h"/ a\
const bool starts_though_late = true;
