/* The commands, each as the hypercalls that xl makes for it. */
#include "harness.h"

bool is_cap_given;                      /* whether the present command gives a cap; asked by a change of Xen's code alone */
static bool is_paused[MAX_DOMAINS];

/* A value below 0 stays as it is. */
long set_credit2(int domain, int weight, int cap)
{
    struct xen_domctl_scheduler_op op = { .sched_id = XEN_SCHEDULER_CREDIT2, .cmd = XEN_DOMCTL_SCHEDOP_getinfo };
    long answer = sched_adjust(domains[domain], &op);
    if ( answer )
        return answer;
    op.cmd = XEN_DOMCTL_SCHEDOP_putinfo;
    if ( weight >= 0 )
        op.u.credit2.weight = weight;
    if ( cap >= 0 )
        op.u.credit2.cap = cap;
    is_cap_given = cap >= 0;
    return sched_adjust(domains[domain], &op);
}

/* The newest period and extra time of each unit, which its next replenishment brings into force. A domain that moves has Xen's defaults. */
enum { DEFAULT_PERIOD = 10000 };
static struct { long period; bool extra; } newest[MAX_DOMAINS][MAX_GUESTS];

static void forget_newest(int domain)
{
    int unit;
    for ( unit = 0; unit < MAX_GUESTS; unit++ )
    {
        newest[domain][unit].period = DEFAULT_PERIOD;
        newest[domain][unit].extra = true;
    }
}

long period_of(int domain, int unit) { return newest[domain][unit].period * 1000; }
bool has_extra_time(int domain, int unit) { return newest[domain][unit].extra; }

long set_rtds(int domain, int vcpu, long period, long budget, int extra)
{
    struct xen_domctl_schedparam_vcpu values = { .vcpuid = vcpu };
    struct xen_domctl_scheduler_op op = { .sched_id = XEN_SCHEDULER_RTDS, .cmd = XEN_DOMCTL_SCHEDOP_getvcpuinfo };
    long answer;
    op.u.v.vcpus.p = &values;
    op.u.v.nr_vcpus = 1;
    answer = sched_adjust(domains[domain], &op);
    if ( answer )
        return answer;
    op.cmd = XEN_DOMCTL_SCHEDOP_putvcpuinfo;
    op.u.v.nr_vcpus = 1;
    if ( period >= 0 )
        values.u.rtds.period = period;
    if ( budget >= 0 )
        values.u.rtds.budget = budget;
    if ( extra > 0 )
        values.u.rtds.flags |= XEN_DOMCTL_SCHEDRT_extra;
    if ( extra == 0 )
        values.u.rtds.flags &= ~XEN_DOMCTL_SCHEDRT_extra;
    answer = sched_adjust(domains[domain], &op);
    if ( !answer )
    {
        newest[domain][vcpu / core_size].period = values.u.rtds.period;
        newest[domain][vcpu / core_size].extra = values.u.rtds.flags & XEN_DOMCTL_SCHEDRT_extra;
    }
    return answer;
}

/* All vCPUs of the domain, or the one that is named. */
static long set_rtds_of(int domain, int vcpu, long period, long budget, int extra)
{
    long answer = 0;
    int number;
    if ( vcpu >= 0 )
        return set_rtds(domain, vcpu, period, budget, extra);
    for ( number = 0; number < domains[domain]->max_vcpus && !answer; number++ )
        answer = set_rtds(domain, number, period, budget, extra);
    return answer;
}

long set_frame(int pool, const struct frame *frame)
{
    static struct xen_sysctl_arinc653_schedule schedule;
    struct xen_sysctl_scheduler_op op = { .cpupool_id = pool, .sched_id = XEN_SCHEDULER_ARINC653, .cmd = XEN_SYSCTL_SCHEDOP_putinfo };
    int place;
    memset(&schedule, 0, sizeof(schedule));
    schedule.major_frame = frame->major;
    schedule.num_sched_entries = frame->count;
    for ( place = 0; place < frame->count; place++ )
    {
        memcpy(schedule.sched_entries[place].dom_handle, domains[frame->windows[place].domain]->handle, sizeof(xen_domain_handle_t));
        schedule.sched_entries[place].vcpu_id = frame->windows[place].unit * core_size;
        schedule.sched_entries[place].runtime = frame->windows[place].run;
    }
    op.u.sched_arinc653.schedule.p = &schedule;
    return sched_adjust_global(&op);
}

long set_rate_limit(int pool, long microseconds)
{
    struct xen_sysctl_scheduler_op op = { .cpupool_id = pool, .sched_id = XEN_SCHEDULER_CREDIT2, .cmd = XEN_SYSCTL_SCHEDOP_putinfo };
    op.u.sched_credit2.ratelimit_us = microseconds;
    return sched_adjust_global(&op);
}

long change_pool(int what, int pool, int processor, int domain, int kind)
{
    struct xen_sysctl_cpupool_op op = { .op = what, .cpupool_id = pool, .cpu = processor, .domid = domain, .sched_id = kind };
    return cpupool_do_sysctl(&op);
}

long pin_unit(int domain, int unit, unsigned long processors)
{
    cpumask_t mask;
    cpumask_clear(&mask);
    mask.bits[0] = processors;
    return vcpu_set_hard_affinity(domains[domain]->vcpu[unit * core_size], &mask);
}

static long pin_units(int domain, int unit, unsigned long processors)
{
    long answer = 0;
    int number;
    if ( unit >= 0 )
        return pin_unit(domain, unit, processors);
    for ( number = 0; number * core_size < domains[domain]->max_vcpus && !answer; number++ )
        answer = pin_unit(domain, number, processors);
    return answer;
}

/* As Xen does for the toolstack, but without waiting, and with a mark where Xen counts. */
static long pause_domain(int number)
{
    struct vcpu *vcpu;
    if ( is_paused[number] )
        return 0;
    is_paused[number] = true;
    atomic_inc(&domains[number]->pause_count);
    for_each_vcpu ( domains[number], vcpu )
        vcpu_sleep_nosync(vcpu);
    return 0;
}

static long unpause_domain(int number)
{
    if ( is_paused[number] )
        domain_unpause(domains[number]);
    is_paused[number] = false;
    return 0;
}

static void stall(unsigned int processor, long span)
{
    stalled_until[processor] = max(stalled_until[processor], present_moment + span);
    tell("stall p%u until %ld", processor, stalled_until[processor] - plan.origin);
}

static long answer_to(const struct line *line)
{
    const long *value = line->values;
    switch ( line->what )
    {
    case CREDIT2: return set_credit2(value[0], value[1], value[2]);
    case RATE: return set_rate_limit(value[0], value[1]);
    case RTDS: return set_rtds_of(value[0], value[1], value[2], value[3], value[4]);
    case PAUSE: return pause_domain(value[0]);
    case UNPAUSE: return unpause_domain(value[0]);
    case FRAME: return set_frame(value[0], line->frame);
    case CREATE: return change_pool(XEN_SYSCTL_CPUPOOL_OP_CREATE, value[0], 0, 0, kinds[value[1]]);
    case DESTROY: return change_pool(XEN_SYSCTL_CPUPOOL_OP_DESTROY, value[0], 0, 0, 0);
    case ADD: return change_pool(XEN_SYSCTL_CPUPOOL_OP_ADDCPU, value[0], value[1], 0, 0);
    case REMOVE: return change_pool(XEN_SYSCTL_CPUPOOL_OP_RMCPU, value[0], value[1], 0, 0);
    case MIGRATE: return change_pool(XEN_SYSCTL_CPUPOOL_OP_MOVEDOMAIN, value[1], 0, value[0], 0);
    case PIN: return pin_units(value[0], value[1], value[2]);
    case NAME: return 0;                /* names are the toolstack's */
    default: BUG(); return 0;
    }
}

/* The pool that a command names, or that has the domain that it names. */
static int pool_of_line(const struct line *line)
{
    switch ( line->what )
    {
    case RATE: case FRAME: case CREATE: case DESTROY: case ADD: case REMOVE: case NAME: return line->values[0];
    default: return domains[line->values[0]]->cpupool->cpupool_id;
    }
}

/* What xensched has as an event of its own: a core or a domain has come to its new pool. */
static void tell_moved(const struct line *line, int home)
{
    const long *value = line->values;
    if ( line->what == ADD )
        tell("moved c%ld pool %ld", value[1] / core_size, value[0]);
    else if ( line->what == REMOVE )
        tell("moved c%ld free", value[1] / core_size);
    else if ( line->what == MIGRATE && home != value[1] )
    {
        forget_newest(value[0]);
        tell("dom-moved d%ld pool %ld", value[0], value[1]);
    }
}

void carry_out(const struct line *line)
{
    static int number;
    long answer;
    int pool, home;
    present_cpu = TOOLSTACK;
    if ( line->what == STALL )
        return stall(line->values[0], line->values[1]);
    pool = home = pool_of_line(line);
    if ( plan.whole )
        host_keep_back();
    answer = answer_to(line);
    if ( plan.whole )
    {
        if ( !answer )
            tell_moved(line, home);
        host_go_ahead();
    }
    tell("xl %d %s %ld", ++number, answer ? "refused" : "ok", answer);
    if ( plan.whole )
        host_follow();
    if ( !answer && pool >= 0 )
        look(pool);
    if ( line->what == MIGRATE )
        look(pool_of_line(line));
}
