# file: credit2
# A reset comes where the chosen unit is at or below 0, whatever waits, and once a moment.
/^struct csched2_runqueue_data \{/ a\
    s_time_t last_reset;
/csched2_schedule\(/,/^\}/ {
    s/top_credit = max\(.*/top_credit = snext->credit;/
    s/if \( top_credit <= CSCHED2_CREDIT_RESET \)/if ( top_credit <= CSCHED2_CREDIT_RESET \&\& rqd->last_reset != now )/
    s/reset_credit\(/rqd->last_reset = now, &/
}
