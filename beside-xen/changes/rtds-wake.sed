# file: rt
# A unit that wakes after its deadline is replenished as others are, by the timer. Xen replenishes it as it wakes, before it is compared.
/^rt_unit_wake/,/^\}/ s/missed = \(.*/missed = false;/
