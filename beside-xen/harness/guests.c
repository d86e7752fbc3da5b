/* Guests, which are scripts of running and sleeping, and what Xen's switch of contexts means for them. */
#include "harness.h"
#include <xen/trace.h>

static bool has_arrived[NR_CPUS];       /* told since the processor ran a guest or idled */
static long dues[NR_CPUS];              /* of each core, when it was to ask again; 0 where it was not */
static unsigned int resets;             /* of the present decision */
static unsigned int to_leave[NR_CPUS];  /* of each core, its processors that have not left since it decided */
static const struct sched_unit *to_save[NR_CPUS];       /* and the unit that it is switching out */

/* The processor waits for its siblings from now on. */
static void tell_arrival(unsigned int processor)
{
    if ( !plan.whole || has_arrived[processor] )
        return;
    has_arrived[processor] = true;
    tell("arrive p%u", processor);
}

/* When the core asks again, -1 where it does not. */
static long due_of(const struct sched_resource *core)
{
    return timer_is_active(&core->s_timer) ? core->s_timer.expires - plan.origin : -1;
}

static void tell_whole_decision(unsigned int core, const char *unit, long due)
{
    char asks[24] = "none";
    long late = dues[core] ? max(0l, present_moment - dues[core]) : 0;
    if ( due >= 0 )
        host_write(asks, sizeof(asks), "%ld", due);
    tell("decide c%u %s due %s late %ld reset %u", core, unit, asks, late, resets);
    dues[core] = due >= 0 ? due + plan.origin : 0;
    resets = 0;
}

/* The unit that the processor's core is switching out, or none. */
static struct sched_unit *saved_unit(unsigned int processor)
{
    struct sched_unit *unit = get_sched_res(processor)->prev;
    return unit && !is_idle_unit(unit) ? unit : NULL;
}

/* A decision as xensched prints it, told by the processor that has the core's timer; with whole entries by the first that leaves. */
static void tell_decision(unsigned int processor)
{
    struct sched_resource *core = get_sched_res(processor);
    unsigned int first = processor / core_size * core_size, sibling;
    char unit[24] = "idle";
    if ( plan.whole ? to_leave[first] : core->master_cpu != processor )
        return;
    for ( sibling = first; sibling < first + core_size; sibling++ )
        tell_arrival(sibling);
    if ( !is_idle_unit(core->curr) )
        host_write(unit, sizeof(unit), "d%du%u", core->curr->domain->domain_id, core->curr->unit_id / core_size);
    to_leave[first] = core_size;
    to_save[first] = saved_unit(processor);
    if ( plan.whole )
        tell_whole_decision(first / core_size, unit, due_of(core));
    else
        tell("decide c%u %s due %ld", first / core_size, unit, due_of(core));
}

/* The processor goes on after a decision of its core. */
static void tell_leave(unsigned int processor, const struct vcpu *vcpu)
{
    to_leave[processor / core_size * core_size]--;
    has_arrived[processor] = false;
    if ( is_idle_vcpu(vcpu) )
        tell("leave p%u idle", processor);
    else
        tell("leave p%u d%dv%d", processor, vcpu->domain->domain_id, vcpu->vcpu_id);
}

static bool is_held[NR_CPUS];           /* the processor is in Xen's code, and its guest stands still */

static void count_work(struct vcpu *vcpu)
{
    if ( !is_idle_vcpu(vcpu) && vcpu->arch.left >= 0 )
        vcpu->arch.left = max(0l, vcpu->arch.left - (present_moment - vcpu->arch.started));
}

/* The guest of the processor stands still from now on. */
void hold_guest(unsigned int processor)
{
    if ( !is_held[processor] )
        count_work(current_vcpus[processor]);
    is_held[processor] = true;
}

/* It waits for its siblings, who are to decide with it. */
void wait_for_siblings(unsigned int processor)
{
    hold_guest(processor);
    tell_arrival(processor);
}

/* It goes on. */
static void release_guest(unsigned int processor)
{
    current_vcpus[processor]->arch.started = present_moment;
    is_held[processor] = false;
}

/* With each entry told, a vCPU that starts beside its siblings is none. */
static void start_guest(unsigned int processor, struct vcpu *vcpu, bool is_told)
{
    current_vcpus[processor] = vcpu;
    release_guest(processor);
    if ( is_told )
        tell_leave(processor, vcpu);
}

/* Whether a vCPU of the unit is awake, and its domain not paused. Xen's own mark counts a budget that is used up too. */
static bool could_run(const struct sched_unit *unit)
{
    struct vcpu *vcpu;
    bool any = false;
    for_each_sched_unit_vcpu ( unit, vcpu )
        any |= vcpu->arch.wakes < 0;
    return any && !atomic_read(&unit->domain->pause_count);
}

/* The unit is put away, and all of the core's processors have gone on. */
static void tell_saved(unsigned int processor)
{
    unsigned int first = processor / core_size * core_size;
    const struct sched_unit **unit = &to_save[first];
    if ( plan.whole && *unit && !get_sched_res(processor)->prev && !to_leave[first] )
    {
        tell("save c%u d%du%u %s", processor / core_size, (*unit)->domain->domain_id, (*unit)->unit_id / core_size, could_run(*unit) ? "queued" : "off");
        *unit = NULL;
    }
}

/* Whether one processor alone changes its vCPU, because that sleeps or wakes while its siblings go on. */
static bool is_alone(const struct vcpu *to)
{
    return core_size > 1 && !atomic_read(&to->sched_unit->rendezvous_out_cnt);
}

/* Called by schedule() once it has decided. By rank, all cores of a moment decide before one leaves, and leave before one saves. */
void context_switch(struct vcpu *from, struct vcpu *to)
{
    unsigned int processor = present_cpu;
    bool is_told = !plan.whole || !is_alone(to);
    if ( !is_alone(to) )
    {
        tell_decision(processor);
        stand_at(processor, BEFORE_LEAVING);
    }
    hold_guest(processor);
    start_guest(processor, to, is_told);
    if ( saved_unit(processor) )
        stand_at(processor, BEFORE_SAVING);
    sched_context_switched(from, to);
    tell_saved(processor);
    stand_at(processor, AT_REST);
}

/* A processor that keeps its vCPU waits for its siblings before Xen says so, but not before it leaves a record. */
static void take_continuing(unsigned int processor)
{
    if ( !plan.whole )
        return;
    tell_decision(processor);
    tell_leave(processor, current_vcpus[processor]);
}

/* Called where the processor keeps its vCPU. */
void continue_running(struct vcpu *vcpu)
{
    unsigned int processor = present_cpu;
    if ( !plan.whole )
        tell_decision(processor);
    stand_at(processor, BEFORE_LEAVING);
    if ( plan.whole )
        hold_guest(processor);
    if ( is_held[processor] )
        start_guest(processor, vcpu, !plan.whole);
    tell_saved(processor);
    stand_at(processor, AT_REST);
}

/* When the guest that the processor runs has done its work; -1 where it never will, or where none runs. */
long done_at(unsigned int processor)
{
    struct vcpu *vcpu = current_vcpus[processor];
    if ( !vcpu || is_idle_vcpu(vcpu) || is_held[processor] || vcpu->arch.left < 0 || vcpu->arch.wakes >= 0 )
        return -1;
    return vcpu->arch.started + vcpu->arch.left;
}

void block_guest(unsigned int processor)
{
    struct vcpu *vcpu = current_vcpus[processor];
    struct arch_vcpu *guest = &vcpu->arch;
    guest->wakes = present_moment + guest->script[guest->place + 1];
    guest->place = (guest->place + 2) % guest->length;
    guest->left = 0;
    guest->started = present_moment;
    tell("block p%u d%dv%d", processor, vcpu->domain->domain_id, vcpu->vcpu_id);
    present_cpu = processor;
    vcpu_block();
    present_cpu = TOOLSTACK;
}

void wake_guest(struct vcpu *vcpu)
{
    struct arch_vcpu *guest = &vcpu->arch;
    guest->wakes = -1;
    guest->left = guest->script[guest->place];
    guest->started = present_moment;
    tell("wake d%dv%d", vcpu->domain->domain_id, vcpu->vcpu_id);
    present_cpu = 0;                    /* an interrupt on some processor */
    vcpu_unblock(vcpu);
    present_cpu = TOOLSTACK;
}

/*
 * Xen's own trace records: all of them to the file that was asked for, as xentrace writes it, and those of replenishments
 * and resets to the log. What the toolstack brings about is on processor 0.
 */
unsigned long record_count;

void take_trace(u32 event, unsigned int size, const void *record)
{
    record_count++;
    if ( is_begun )
        host_trace(present_cpu == TOOLSTACK ? 0 : present_cpu, present_moment, event, size, record);
    if ( event == TRC_SCHED_SWITCH_INFCONT )
        take_continuing(present_cpu);
    else if ( event == TRC_SCHED_CLASS_EVT(RTDS, 4) )
    {
        const struct __packed { u16 unit, domain; u32 level; u64 deadline, budget; } *it = record;
        unsigned int unit = it->unit / core_size;
        long deadline = (long)it->deadline - plan.origin;
        if ( !plan.whole )
            tell("repl d%uu%u deadline %ld budget %ld", it->domain, unit, deadline, (long)it->budget);
        else if ( is_timer_running && present_moment > plan.origin )      /* at 0 each unit has its first term */
            tell("repl d%uu%u start %ld deadline %ld budget %ld extra %d", it->domain, unit, deadline - period_of(it->domain, unit), deadline, (long)it->budget,
                 has_extra_time(it->domain, unit));
    }
    else if ( event == TRC_SCHED_CLASS_EVT(CSCHED2, 7) )
    {
        const struct { u16 unit, domain; int from, to; } *it = record;
        if ( !plan.whole )
            tell("reset d%uu%u from %d to %d", it->domain, it->unit / core_size, it->from, it->to);
        else                            /* the chosen unit has all of it, the others up to the most that one may have */
            resets = max(resets, (unsigned int)((it->to - it->from) / MILLISECS(10)));
    }
}

/* Told by a change of Xen's code: the whole periods since a domain's budget was refilled before, and its budget after it. */
void tell_refill(unsigned int domain, long periods, long budget)
{
    if ( plan.whole )
        tell("refill d%u periods %ld budget %ld", domain, periods, budget);
}
