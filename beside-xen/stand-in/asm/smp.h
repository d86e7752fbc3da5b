#pragma once
#include <xen/cpumask.h>
#include <xen/percpu.h>
#include <asm/current.h>
void let_others_run(void);              /* where Xen waits for another processor */
extern unsigned int core_size;          /* how many processors decide together */
extern unsigned int siblings;           /* how many processors a core of the host has: as many, or more where each decides alone */
extern unsigned int socket_size;        /* and a socket */
DECLARE_PER_CPU(cpumask_var_t, cpu_sibling_mask);
DECLARE_PER_CPU(cpumask_var_t, cpu_core_mask);
#define smp_processor_id() (present_cpu)
#define cpu_relax() let_others_run()
#define cpu_is_offline(cpu) (!cpu_online(cpu))
#define park_offline_cpus false
