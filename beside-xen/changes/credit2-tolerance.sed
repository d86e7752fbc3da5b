# file: credit2
# Tickling keeps to the whole rate limit, and not to 50 us less.
/define CSCHED2_RATELIMIT_TICKLE_TOLERANCE/ s/MICROSECS\(50\)/0/
/is_preemptable\(/,/^\}/ s/state_entry_time >$/&=/
