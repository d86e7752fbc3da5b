# file: credit2
# After each event every core is looked at, and decides anew where something better waits. Xen tickles one processor.
/^runq_tickle\(/,/^\}/ s/ASSERT\(new->rqd == rqd\);/return;/
