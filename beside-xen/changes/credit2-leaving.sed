# file: credit2
# A core that is leaving its pool takes no further unit of the queue. In Xen it does, until it is found empty.
/^runq_candidate/,/^\}/ s/!cpumask_test_cpu\(cpu, svc->unit->cpu_hard_affinity\)/& || !cpumask_test_cpu(cpu, cpupool_domain_master_cpumask(svc->unit->domain))/
