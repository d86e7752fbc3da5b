# file: core
# A unit that is pinned anew goes on, or keeps its place, where its core stays allowed. Xen stops it and places it anew.
/^static int vcpu_set_affinity/,/^\}/ s/sched_unit_migrate_start\(unit\);/if ( unit->is_running \&\& !cpumask_test_cpu(sched_unit_master(unit), affinity) ) &/
