/* Xen's boot, as far as it makes schedulers, pools and domains, and the moment 0 of the files. */
#include "harness.h"

enum { DOMAINS_MADE = 10000000 };       /* Xen's clock when domains are made: refills of caps stand on multiples of it */

/* Xen's pools at boot are those of the input. */
void btcpupools_dtb_parse(void) { }

void btcpupools_allocate_pools(void)
{
    int number;
    for ( number = 0; number < plan.pool_count; number++ )
    {
#if XEN_MINOR >= 15
        struct cpupool *pool = cpupool_create_pool(number, kinds[plan.pools[number].kind]);
        if ( !number )
            cpupool0 = pool;
#endif
    }
}

unsigned int btcpupools_get_cpupool_id(unsigned int processor)
{
    int number;
    for ( number = 0; number < plan.pool_count; number++ )
        if ( plan.pools[number].processors >> processor & 1 )
            return number;
    return 0;
}

static void make_topology(void)
{
    unsigned int processor, sibling;
    for ( processor = 0; processor < NR_CPUS; processor++ )
    {
        unsigned int first = processor / siblings * siblings;
        cpumask_clear(per_cpu(cpu_sibling_mask, processor));
        cpumask_setall(per_cpu(cpu_core_mask, processor));
        for ( sibling = first; sibling < first + siblings; sibling++ )
            cpumask_set_cpu(sibling, per_cpu(cpu_sibling_mask, processor));
    }
}

/* The toolstack is a processor of no pool, whose lock nobody else takes. */
static void place_toolstack(void)
{
    static struct sched_resource place;
    static spinlock_t lock = SPIN_LOCK_UNLOCKED;
    place.schedule_lock = &lock;
    place.master_cpu = TOOLSTACK;
    set_sched_res(TOOLSTACK, &place);
    present_cpu = TOOLSTACK;
    current_vcpus[TOOLSTACK] = idle_vcpu[0];
}

static void start_scheduling(void)
{
    extern int (*const first_initcall[])(void), (*const end_of_initcalls[])(void);
    int (*const *call)(void);
    unsigned int processor;
    set_parameter("sched", kind_names[plan.pools[0].kind]);
    if ( core_size > 1 )
        set_parameter("sched-gran", "core");
    present_cpu = 0;
    cpumask_set_cpu(0, &cpu_online_map);
    timer_init();
    set_slop(0);
    scheduler_init();
    current_vcpus[0] = idle_vcpu[0];
    for ( processor = 1; processor < plan.processors; processor++ )
    {
        start_processor(processor);
        current_vcpus[processor] = idle_vcpu[processor];
    }
    make_processors();
    for ( call = first_initcall; call < end_of_initcalls; call++ )
        BUG_ON((*call)());
}

#if XEN_MINOR < 15
/* Older than Xen 4.15: at boot all processors are the first pool's. The others are made and get their cores as by xl. */
static void free_others(void)
{
    unsigned int processor;
    int number;
    for ( number = 1; number < plan.pool_count; number++ )
        BUG_ON(change_pool(XEN_SYSCTL_CPUPOOL_OP_CREATE, number, 0, 0, kinds[plan.pools[number].kind]));
    for ( processor = 0; processor < plan.processors; processor += core_size )
    {
        if ( plan.pools[0].processors >> processor & 1 )
            continue;
        BUG_ON(change_pool(XEN_SYSCTL_CPUPOOL_OP_RMCPU, 0, processor, 0, 0));
        settle();
        for ( number = 1; number < plan.pool_count; number++ )
            if ( plan.pools[number].processors >> processor & 1 )
                BUG_ON(change_pool(XEN_SYSCTL_CPUPOOL_OP_ADDCPU, number, processor, 0, 0));
        settle();
    }
}
#else
/* Processors that no pool of the input has become free. */
static void free_others(void)
{
    unsigned long taken = 0;
    unsigned int processor;
    int number;
    for ( number = 0; number < plan.pool_count; number++ )
        taken |= plan.pools[number].processors;
    for ( processor = 0; processor < plan.processors; processor += core_size )
        if ( !(taken >> processor & 1) )
            BUG_ON(change_pool(XEN_SYSCTL_CPUPOOL_OP_RMCPU, 0, processor, 0, 0));
}
#endif

static void make_guest(struct domain *domain, const struct domain_plan *its, int number)
{
    struct vcpu *vcpu = vcpu_create(domain, number);
    vcpu->arch.script = its->scripts[number];
    vcpu->arch.length = its->lengths[number];
    vcpu->arch.left = its->lengths[number] ? its->scripts[number][0] : -1;
}

static void set_rtds_of_all(int number, long period, long budget, int extra)
{
    int vcpu;
    for ( vcpu = 0; vcpu < plan.domains[number].vcpus; vcpu++ )
        BUG_ON(set_rtds(number, vcpu, period, budget, extra));
}

static void set_parameters(int number)
{
    const struct domain_plan *its = &plan.domains[number];
    int kind = plan.pools[its->pool].kind, unit;
    if ( kinds[kind] == XEN_SCHEDULER_CREDIT2 )
    {
        BUG_ON(set_credit2(number, its->weight, -1));
        if ( its->cap && set_credit2(number, -1, its->cap) )
        {
            host_complain("Xen refuses the cap of domain %d\n", number);
            host_end(3);
        }
    }
    if ( kinds[kind] == XEN_SCHEDULER_RTDS )
        set_rtds_of_all(number, its->period, its->budget, its->extra);
    for ( unit = 0; unit * core_size < its->vcpus; unit++ )
        if ( its->pins[unit] )
            BUG_ON(pin_unit(number, unit, its->pins[unit]));
}

static void make_domain(int number)
{
    const struct domain_plan *its = &plan.domains[number];
    struct domain *domain = domain_create(number, NULL, 0), **end = &domain_list;
    int vcpu;
    domains[number] = domain;
    domain->handle[15] = number;        /* the frames of ARINC 653 name a domain by its handle */
    domain->max_vcpus = its->vcpus;
    domain->vcpu = host_memory(its->vcpus * sizeof(*domain->vcpu));
    atomic_set(&domain->pause_count, 1);
    while ( *end )
        end = &(*end)->next_in_list;
    *end = domain;
    BUG_ON(sched_init_domain(domain, its->pool));
    for ( vcpu = 0; vcpu < its->vcpus; vcpu++ )
        make_guest(domain, its, vcpu);
    domain_update_node_affinity(domain);
    set_parameters(number);
    settle();
}

void boot(void)
{
    int number;
    make_topology();
    start_scheduling();
    place_toolstack();
    settle();
    free_others();
    settle();
    for ( number = 0; number < plan.pool_count; number++ )
        if ( kinds[plan.pools[number].kind] == XEN_SCHEDULER_CREDIT2 )
            BUG_ON(set_rate_limit(number, plan.pools[number].rate_limit));
    present_moment = DOMAINS_MADE;
    for ( number = 0; number < plan.domain_count; number++ )
        make_domain(number);
    settle();
}

/* Xen idles until shortly before the moment 0. */
static void idle_until(long end)
{
    int lines = plan.line_count;
    plan.line_count = 0;
    while ( next_moment() < end )
    {
        present_moment = next_moment();
        run_moment();
    }
    plan.line_count = lines;
    present_moment = end;
}

/*
 * The first deadline of an RTDS unit is one period after the moment 0 for xensched. Xen's deadlines stand on whole
 * periods from the one that the unit was given when it was made, so each unit is woken once for a period that ends at 0.
 */
static void align_deadlines(int number)
{
    const struct domain_plan *its = &plan.domains[number];
    struct vcpu *vcpu;
    set_rtds_of_all(number, (plan.origin - 2 * DOMAINS_MADE) / 1000, 10, 0);
    for_each_vcpu ( domains[number], vcpu )
        clear_bit(_VPF_down, &vcpu->pause_flags);
    domain_unpause(domains[number]);
    run_timers();
    atomic_inc(&domains[number]->pause_count);
    for_each_vcpu ( domains[number], vcpu )
        vcpu_sleep_nosync(vcpu);
    set_rtds_of_all(number, its->period, its->budget, its->extra);
}

static void wake_one_by_one(struct domain *domain)
{
    struct vcpu *vcpu;
    atomic_dec(&domain->pause_count);
    for_each_vcpu ( domain, vcpu )
    {
        vcpu_wake(vcpu);
        look(domain->cpupool->cpupool_id);
        settle();
    }
}

static void start_domain(struct domain *domain)
{
    struct vcpu *vcpu;
    for_each_vcpu ( domain, vcpu )
        clear_bit(_VPF_down, &vcpu->pause_flags);
    if ( plan.apart )
        wake_one_by_one(domain);
    else
        domain_unpause(domain);
}

/* A run of xensched begins with each core of a pool about to decide, once. */
static void ask_each_core(void)
{
    unsigned int processor;
    for ( processor = 0; processor < plan.processors; processor++ )
        clear_bit(SCHEDULE_SOFTIRQ, &softirq_pending(processor));
    for ( processor = 0; processor < plan.processors; processor += core_size )
        if ( get_sched_res(processor)->cpupool )
            cpu_raise_softirq(processor, SCHEDULE_SOFTIRQ);
}

/* The frames are set and the domains started at the moment 0. */
void begin(void)
{
    int number;
    idle_until(plan.origin - 1000);
    for ( number = 0; number < plan.domain_count; number++ )
        if ( kinds[plan.pools[plan.domains[number].pool].kind] == XEN_SCHEDULER_RTDS )
            align_deadlines(number);
    settle();
    present_moment = plan.origin;
    run_timers();                       /* those of this very moment, as of caps */
    is_begun = true;
    set_slop(plan.slop);
    for ( number = 0; number < plan.pool_count; number++ )
        if ( plan.pools[number].frame.count )
            BUG_ON(set_frame(number, &plan.pools[number].frame));
    for ( number = 0; number < plan.domain_count; number++ )
        start_domain(domains[number]);
    run_timers();
    if ( plan.whole )
        ask_each_core();
    settle();
}
