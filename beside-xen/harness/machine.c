/* The processors, and the order of what happens in a moment. */
#include "harness.h"

long present_moment;
bool is_begun;
long stalled_until[NR_CPUS];
int next_line;

static enum place places[NR_CPUS];
static bool is_waiting[NR_CPUS];        /* for another processor, in Xen's cpu_relax() */

static bool is_up(unsigned int processor)
{
    return stalled_until[processor] <= present_moment;
}

/* Asked by a change of Xen's code alone. */
bool is_late(unsigned int processor)
{
    return !is_up(processor);
}

/* The number of the processor's pool, -1 where it is in none. */
static int pool_of(unsigned int processor)
{
    const struct cpupool *pool = get_sched_res(processor)->cpupool;
    return pool ? pool->cpupool_id : -1;
}

/* A processor is a thread of control that goes through its softirqs whenever it is let. */
static void live(void)
{
    for ( ; ; )
    {
        unsigned int processor = present_cpu;
        do_softirq();
        BUG_ON(present_cpu != processor);
        host_stop(processor);
    }
}

void make_processors(void)
{
    int number;
    for ( number = 0; number < plan.processors; number++ )
        host_make_thread(number, live);
}

static void let_go_on(unsigned int processor)
{
    unsigned int caller = present_cpu;
    present_cpu = processor;
    host_go_on(processor);
    present_cpu = caller;
}

/* A late processor starts a vCPU, and is to do nothing else. */
static bool is_starting;

/* Where the order of a moment is that of the ranks, the processor stops here until its turn comes. */
void stand_at(unsigned int processor, enum place place)
{
    if ( !is_begun || !(plan.by_rank || (is_starting && place == AT_REST)) )
        return;
    places[processor] = place;
    host_stop(processor);
    places[processor] = AT_REST;
    present_cpu = processor;
}

/*
 * What a change of Xen's code may bring: whether the core with this first processor is to decide anew, by xensched's
 * rule. Without such a change they are missing, and Xen's own tickling alone says which core decides.
 */
extern bool rtds_is_to_decide(unsigned int processor) __attribute__((weak));
extern bool credit2_is_to_decide(unsigned int processor) __attribute__((weak));
extern bool arinc653_is_to_decide(unsigned int processor) __attribute__((weak));
extern bool null_is_to_decide(unsigned int processor) __attribute__((weak));

static bool (*rule_of(int scheduler))(unsigned int processor)
{
    switch ( scheduler )
    {
    case XEN_SCHEDULER_RTDS: return rtds_is_to_decide;
    case XEN_SCHEDULER_CREDIT2: return credit2_is_to_decide;
    case XEN_SCHEDULER_ARINC653: return arinc653_is_to_decide;
    case XEN_SCHEDULER_NULL: return null_is_to_decide;
    default: return NULL;
    }
}

/* Whether the processor is not in the midst of a switch. */
bool is_at_rest(unsigned int processor)
{
    return places[processor] == AT_REST && !is_waiting[processor];
}

/* Whether a processor of the core is to schedule already. */
bool is_asked(unsigned int first)
{
    unsigned int processor;
    for ( processor = first; processor < first + core_size; processor++ )
        if ( test_bit(SCHEDULE_SOFTIRQ, &softirq_pending(processor)) )
            return true;
    return false;
}

static bool is_to_decide(unsigned int processor)
{
    const struct sched_resource *core = get_sched_res(processor);
    bool (*rule)(unsigned int processor) = rule_of(core->scheduler->sched_id);
    if ( !cpumask_test_cpu(processor, core->cpupool->cpu_valid) )
        return false;
    if ( core->curr->rendezvous_in_cnt || is_asked(processor) )
        return false;
    return rule && rule(processor);
}

/* Each core of the pool is looked at, as xensched does after each event of a pool. */
void look(int pool)
{
    unsigned int processor;
    for ( processor = 0; processor < plan.processors; processor += core_size )
        if ( pool_of(processor) == pool && is_to_decide(processor) )
            cpu_raise_softirq(processor, SCHEDULE_SOFTIRQ);
}

static bool may_decide(unsigned int processor)
{
    return is_up(processor) && places[processor] == AT_REST && (is_waiting[processor] || softirq_pending(processor));
}

/* Whether the processor is about to meet its siblings, or to decide where it has none. */
static bool is_to_arrive(unsigned int processor)
{
    unsigned long asked = softirq_pending(processor);
    return !is_waiting[processor] && (asked & (1ul << SCHEDULE_SOFTIRQ) || (asked & (1ul << SCHED_SLAVE_SOFTIRQ) && get_sched_res(processor)->curr->rendezvous_in_cnt));
}

/* The processor goes on, if it may, until it has nothing to do. Whether that brought anything about. */
static bool step(unsigned int processor)
{
    bool was_waiting = is_waiting[processor];
    unsigned long records = record_count, entries = entry_count;
    if ( !may_decide(processor) )
        return false;
    if ( plan.whole && !plan.by_rank && is_to_arrive(processor) )
        look(pool_of(processor));       /* it arrives, which is an event of its own */
    let_go_on(processor);
    look(pool_of(processor));
    /* one that waits again may have been through a whole switch, and told so; or, as Xen's records say, it has come a part of the way */
    return !(was_waiting && is_waiting[processor]) || entry_count != entries || (plan.is_shuffled && record_count != records);
}

/* What a change of Xen's code may bring: a processor that is not late begins where the one that was asked is. */
extern void take_over(unsigned int processor) __attribute__((weak));

static void let_take_over(void)
{
    unsigned int processor;
    for ( processor = 0; take_over && processor < plan.processors; processor++ )
        if ( test_bit(SCHEDULE_SOFTIRQ, &softirq_pending(processor)) )
            take_over(processor);
}

/* One processor of those that have something to do, whichever it is. */
static bool step_of_chance(void)
{
    unsigned int first = chance() % plan.processors, place;
    bool any = false;
    for ( place = 0; place < plan.processors && !any; place++ )
        any |= step((first + place) % plan.processors);
    return any;
}

/* One pass over all processors. */
static bool pass_by_number(void)
{
    unsigned int first = plan.most_late ? chance_of_lateness() % plan.processors : 0, place;
    bool any = false;
    let_take_over();
    if ( plan.is_shuffled && is_begun )
        return step_of_chance();
    for ( place = 0; place < plan.processors; place++ )
        any |= step((first + place) % plan.processors);
    return any;
}

/* The processors of the first core that has something to do, after a look for each that arrives. */
static bool step_of_first_core(void)
{
    unsigned int core, processor;
    bool any = false;
    let_take_over();
    for ( processor = 0; processor < plan.processors; processor++ )
        if ( may_decide(processor) )
            look(pool_of(processor));
    for ( core = 0; core < plan.processors && !any; core += core_size )
        for ( processor = core; processor < core + core_size; processor++ )
            any |= step(processor);
    return any;
}

/* The first processor that stands at the place goes on. Whether there is one. */
static bool step_from(enum place place)
{
    unsigned int processor;
    for ( processor = 0; processor < plan.processors; processor++ )
        if ( is_up(processor) && places[processor] == place )
        {
            let_go_on(processor);
            look(pool_of(processor));
            return true;
        }
    return false;
}

/* The cores that may decide do so first, by number; then processors leave, and where none is to leave one saves. */
static bool step_by_rank(void)
{
    return step_of_first_core() || step_from(BEFORE_LEAVING) || step_from(BEFORE_SAVING);
}

/* A moment takes some hundreds of steps. One that takes so many has no end: two rules undo each other's choice. */
#define MOST_STEPS 200000

/* One step of the present moment. Whether there was anything to do. */
static bool go_on(void)
{
    static long moment = -1;
    static int steps;
    if ( moment != present_moment )
        steps = 0;
    moment = present_moment;
    if ( ++steps == MOST_STEPS )
    {
        host_complain("the moment %ld has no end\n", moment - plan.origin);
        host_end(4);
    }
    return plan.by_rank && is_begun ? step_by_rank() : pass_by_number();
}

/* Lets all processors go through their softirqs until nothing is left to do. */
void settle(void)
{
    while ( go_on() )
        ;
}

/* Xen's cpu_relax(): who waits for another processor lets it go on. */
void let_others_run(void)
{
    unsigned int processor = present_cpu;
    if ( processor == TOOLSTACK && plan.by_rank && is_begun )
        go_on();
    else if ( processor == TOOLSTACK )
        settle();
    if ( processor == TOOLSTACK )
        return;
    is_waiting[processor] = true;
    if ( get_sched_res(processor)->curr->rendezvous_in_cnt )
        wait_for_siblings(processor);
    host_stop(processor);
    is_waiting[processor] = false;
    present_cpu = processor;
}

static void carry_out_lines(void)
{
    while ( next_line < plan.line_count && plan.lines[next_line].at + plan.origin <= present_moment )
    {
        const struct line *line = &plan.lines[next_line++];
        carry_out(line);
        if ( line->what != STALL && !plan.by_rank )
            settle();
    }
}

/* What a change of Xen's code may bring: a vCPU that wakes while its siblings run starts also where its processor is late. */
extern const bool starts_though_late __attribute__((weak));

/*
 * The late processor starts its vCPU. Xen tells it to look once more, for a call that it may have missed. It has missed
 * none, and xensched has no event there; but where its siblings meet, it is to come when it is back.
 */
static void start_beside_siblings(const struct vcpu *vcpu)
{
    unsigned int processor = vcpu->processor;
    unsigned long asked = softirq_pending(processor) & (1ul << SCHEDULE_SOFTIRQ);
    if ( is_up(processor) || !vcpu->force_context_switch || places[processor] != AT_REST || is_waiting[processor] )
        return;
    softirq_pending(processor) &= ~asked;
    is_starting = true;
    let_go_on(processor);
    is_starting = false;
    if ( !get_sched_res(processor)->curr->rendezvous_in_cnt )
        clear_bit(SCHED_SLAVE_SOFTIRQ, &softirq_pending(processor));
    softirq_pending(processor) |= asked;
}

static bool wake_guests(void)
{
    bool any = false;
    int number;
    struct vcpu *vcpu;
    for ( number = 0; number < plan.domain_count; number++ )
        if ( domains[number] )
            for_each_vcpu ( domains[number], vcpu )
                if ( vcpu->arch.wakes >= 0 && vcpu->arch.wakes <= present_moment )
                {
                    wake_guest(vcpu);
                    if ( &starts_though_late )
                        start_beside_siblings(vcpu);
                    look(vcpu->domain->cpupool->cpupool_id);
                    any = true;
                }
    return any;
}

static bool block_guests(void)
{
    bool any = false;
    unsigned int processor;
    for ( processor = 0; processor < plan.processors; processor++ )
        if ( is_up(processor) && done_at(processor) >= 0 && done_at(processor) <= present_moment )
        {
            block_guest(processor);
            look(pool_of(processor));
            any = true;
        }
    return any;
}

/* Runs the timers that have come, each on its processor, with a look after each that brought something about. Whether there were any. */
bool run_timers(void)
{
    bool any = false;
    int processor;
    unsigned long before = timer_events;
    while ( (processor = run_timer(stalled_until)) >= 0 )
    {
        if ( timer_events != before )
            look(pool_of(processor));
        before = timer_events;
        any = true;
    }
    return any;
}

/* All of the present moment: commands, wakings, blockings, timers, and then the processors. */
void run_moment(void)
{
    bool again;
    carry_out_lines();
    do
    {
        again = wake_guests();
        again |= block_guests();
        again |= run_timers();
        settle();
    } while ( again );
}

static void take_earlier(long *best, long moment)
{
    *best = min(*best, max(moment, present_moment));
}

static void take_moments_of(unsigned int processor, long *best)
{
    long done = done_at(processor);
    if ( done >= 0 )
        take_earlier(best, max(done, stalled_until[processor]));
    if ( !is_up(processor) && (is_waiting[processor] || places[processor] != AT_REST || softirq_pending(processor)) )
        take_earlier(best, stalled_until[processor]);
}

/* The next moment at which anything may happen, LONG_MAX where there is none. */
long next_moment(void)
{
    long best = LONG_MAX;
    unsigned int number;
    struct vcpu *vcpu;
    for ( number = 0; number < plan.processors; number++ )
        take_moments_of(number, &best);
    for ( number = 0; number < plan.domain_count; number++ )
        if ( domains[number] )
            for_each_vcpu ( domains[number], vcpu )
                if ( vcpu->arch.wakes >= 0 )
                    take_earlier(&best, vcpu->arch.wakes);
    take_earlier(&best, next_timer(stalled_until));
    if ( next_line < plan.line_count )
        take_earlier(&best, plan.lines[next_line].at + plan.origin);
    return best;
}

/* Xen's own account of running time, which the comparison holds against the log. */
static void tell_accounts(void)
{
    int number;
    struct vcpu *vcpu;
    struct vcpu_runstate_info account;
    for ( number = 0; number < plan.domain_count; number++ )
        for_each_vcpu ( domains[number], vcpu )
        {
            vcpu_runstate_get(vcpu, &account);
            tell("account d%dv%d %ld", number, vcpu->vcpu_id, (long)account.time[RUNSTATE_running]);
        }
}

int simulate(void)
{
    read_input();
    boot();
    begin();
    for ( ; ; )
    {
        long next;
        run_moment();
        next = next_moment();
        if ( next == LONG_MAX || next - plan.origin > plan.horizon )
            break;
        present_moment = next;
    }
    present_moment = plan.origin + plan.horizon;
    present_cpu = TOOLSTACK;
    tell_accounts();
    tell("finish");
    return 0;
}
