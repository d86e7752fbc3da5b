# file: rt
# A unit that is replenished while it waits may preempt, also where it was in extra time and not depleted.
/repl_timer_handler/,/^\}/ s/else if \( __test_and_clear_bit\((.*)\) &&/else if ( (__test_and_clear_bit(\1), true) \&\&/
