# file: rt
# After each event every core is looked at, and decides anew where something better waits. Xen kicks one processor.
/^runq_tickle\(/,/^\}/ s/new == NULL/true/
