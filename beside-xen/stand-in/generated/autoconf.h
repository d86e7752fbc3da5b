/*
 * The options with which Xen's files are compiled here. CONFIG_X86 is left out on purpose: without it
 * context_switch() returns to its caller, as on Arm.
 */
#define CONFIG_64BIT 1
#define CONFIG_DEBUG 1
#define CONFIG_NR_CPUS 64
#define CONFIG_HAS_SCHED_GRANULARITY 1
#define CONFIG_BOOT_TIME_CPUPOOLS 1
#define CONFIG_SCHED_DEFAULT "credit2"
#define CONFIG_SCHED_CREDIT2 1
#define CONFIG_SCHED_RTDS 1
#define CONFIG_SCHED_ARINC653 1
#define CONFIG_SCHED_NULL 1
struct dt_device_node;
