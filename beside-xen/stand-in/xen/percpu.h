#pragma once
#include <xen/cache.h>
extern unsigned int present_cpu;        /* the processor that the harness plays at present */
#define DECLARE_PER_CPU(type, name) extern __typeof__(type) per_cpu__##name[NR_CPUS]
#define DEFINE_PER_CPU(type, name) __typeof__(type) per_cpu__##name[NR_CPUS]
#define DEFINE_PER_CPU_READ_MOSTLY DEFINE_PER_CPU
#define per_cpu(var, cpu) (per_cpu__##var[cpu])
#define this_cpu(var) per_cpu(var, present_cpu)
#define per_cpu_ptr(var, cpu) (&per_cpu(var, cpu))
#define get_cpu_var(var) per_cpu(var, present_cpu)
#define put_cpu_var(var)
