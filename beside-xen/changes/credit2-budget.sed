# file: credit2
# A unit gives its budget back before the choice, and the one that is chosen takes some. One that finds none keeps its place.
/^static void park_unit/,/^\}/ s/sched_set_pause_flags\(.*/return;/
/^static void reset_credit/,/^\}/ s/unlikely\(svc->budget <= 0\)/false/
/^runq_candidate/,/^\}/ {
    s/unit_runnable_state\(scurr->unit\)/& \&\& (!has_cap(scurr) || scurr->sdom->budget > 0)/
    s/!unit_grab_budget\(svc\)/svc->sdom->budget <= 0/
}
/csched2_schedule\(/,/^\}/ {
    s/if \( unlikely\(scurr->budget <= 0\) \)/if ( has_cap(scurr) )/
    s/unit_grab_budget\(scurr\);/scurr->sdom->budget += scurr->budget, scurr->budget = 0;/
    s/snext = runq_candidate\(.*/& if ( has_cap(snext) ) unit_grab_budget(snext);/
}
