# file: rt
# The first deadline of a unit is one period after it joins. Xen's stands on whole periods of its clock.
/^rt_unit_insert/,/^\}/ s/rt_update_deadline\(now, svc\);/svc->cur_deadline = now, &/
