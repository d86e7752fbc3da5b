# file: credit2
# The least slice is the whole rate limit also for a unit that goes on. Xen takes what is left of it.
/^csched2_runtime/,/^\}/ s/snext->unit->is_running/false/
