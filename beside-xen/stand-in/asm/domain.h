#pragma once
#include <xen/cpumask.h>
#include <public/domctl.h>
#include <public/hvm/ioreq.h>
/* What the harness keeps for a vCPU: its script, and where it stands in it. */
struct arch_vcpu {
    const long *script;                 /* run, sleep, run, sleep and so on */
    unsigned int length, place;
    long left;                          /* of the present run; -1 where it has no end */
    long started;                       /* since when it runs on a processor */
    long wakes;                         /* when it wakes; -1 where it is awake */
};
struct arch_domain { int none; };
struct arch_vcpu_io { int none; };
