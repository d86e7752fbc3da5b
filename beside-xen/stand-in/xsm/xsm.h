#pragma once
#define xsm_schedop_shutdown(a...) 0
#define xsm_domctl_scheduler_op(a...) 0
#define xsm_sysctl_scheduler_op(a...) 0
