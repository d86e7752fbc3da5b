# file: timer
# A timer runs at its moment. Xen's runs once that is over, which a clock that stands still while Xen's code runs never says.
s/->expires < now\)/->expires <= now)/
