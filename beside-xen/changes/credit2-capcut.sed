# file: credit2
# The budget cuts the slice last, also below the least slice.
/^csched2_runtime/,/^\}/ s/return time;/return has_cap(snext) ? min(time, snext->budget) : time;/
