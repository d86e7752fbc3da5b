# file: rt
# At equal level and deadline the core's own unit goes on.
/^rt_schedule/,/^\}/ s/compare_unit_priority\(scurr, snext\) > 0/compare_unit_priority(scurr, snext) >= 0/
