#pragma once
typedef struct { unsigned long __softirq_pending; } irq_cpustat_t;
extern irq_cpustat_t irq_stat[];
#define softirq_pending(cpu) (irq_stat[cpu].__softirq_pending)
#define in_irq() 0
