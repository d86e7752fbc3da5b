# file: rt
# A unit is replenished at its deadline, whatever its level. Xen keeps these by level first, so a unit in extra time is late.
/^deadline_queue_insert/,/^\}/ s/compare_unit_priority\(svc, iter_svc\)/(qelem == replq_elem ? iter_svc->cur_deadline - svc->cur_deadline : &)/
