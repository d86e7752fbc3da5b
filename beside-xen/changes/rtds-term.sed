# file: rt
# Budget and extra time of the present term stay until the next one. In Xen the flag, and the budget that extra time gives anew, count at once.
/^struct rt_unit \{/ a\
    s_time_t term_budget;\
    bool term_extra;
/^static inline bool has_extratime/,/^\}/ s/svc->flags & RTDS_extratime/svc->term_extra/
/^rt_update_deadline/,/^\}/ s/svc->cur_budget = svc->budget;/& svc->term_budget = svc->budget; svc->term_extra = svc->flags \& RTDS_extratime;/
/^burn_budget/,/^\}/ s/svc->cur_budget = svc->budget;/svc->cur_budget = svc->term_budget;/
/^rt_dom_cntl/,/^\}/ s/has_extratime\(svc\)/svc->flags \& RTDS_extratime/
