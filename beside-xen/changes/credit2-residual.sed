# file: credit2
# What is left of a charge is cut to a weight that is set.
/^csched2_dom_cntl/,/^\}/ s/svc->weight = sdom->weight;/& svc->residual %= svc->weight;/
