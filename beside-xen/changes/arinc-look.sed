# file: arinc653
# After each event the core is looked at, and decides anew where it has not the unit of the present window and that waits. In Xen each waking has it decide.
/^a653sched_unit_wake/,/^\}/ s/cpu_raise_softirq\(/if ( false ) &/
