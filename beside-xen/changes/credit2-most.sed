# file: credit2
# The greatest slice is the rate limit where that is above 10 ms.
/^csched2_runtime/,/^\}/ {
    s/time > CSCHED2_MAX_TIMER/time > max((s_time_t)CSCHED2_MAX_TIMER, min_time)/
    s/time = CSCHED2_MAX_TIMER/time = max((s_time_t)CSCHED2_MAX_TIMER, min_time)/
}
