# file: credit2
# No floor of credit; a reset adds 10 ms as often as it takes.
s/unlikely\(val < CSCHED2_CREDIT_MIN\)/false/
/^static void reset_credit/,/^\}/ {
    s/ASSERT\(snext->credit >= CSCHED2_CREDIT_MIN\);/reset += max(0, -snext->credit) \/ CSCHED2_CREDIT_INIT * CSCHED2_CREDIT_INIT;/
    s/unlikely\(snext->credit == CSCHED2_CREDIT_MIN\)/false/
}
s/(define CSCHED2_IDLE_CREDIT).*/\1 (-2000000000)/
