# file: credit2
# The slice goes down to the best that waits also where its credit is at or below 0.
/^csched2_runtime/,/^\}/ s/swait->credit > 0/true/
