#pragma once
#include <xen/percpu.h>
struct vcpu;
extern struct vcpu *current_vcpus[NR_CPUS];
#define current (current_vcpus[present_cpu])
#define get_cpu_current(cpu) (current_vcpus[cpu])
