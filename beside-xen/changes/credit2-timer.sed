# file: credit2
# A refill comes on the pool's lowest processor. Xen's comes on the one that has the domain's timer, and is late where that is stalled.
/init_timer\(&sdom->repl_timer/,/;/ s/cpumask_any\(/cpumask_first(/
