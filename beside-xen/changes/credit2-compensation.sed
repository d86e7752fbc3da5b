# file: credit2
# No credit is given for a migration.
/define CSCHED2_MIGRATE_COMPENSATION/ s/MICROSECS\(50\)/0/
