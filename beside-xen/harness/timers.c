/*
 * Timers: those of the harness, which come at their moment or up to plan.most_late after it, or with the word `slop` Xen's own,
 * from timer.c. There the clock of a processor is set to its first timer, but no sooner than timer_slop from when it is set.
 */
#include "harness.h"

bool is_timer_running;

/* ---- Those of the harness ---- */
static struct timer *timers[4096];
static long noticed[4096];              /* when each is noticed */
static int timer_count;

/* At most the greatest lateness. */
long chance_of_lateness(void)
{
    return plan.most_late ? chance() % (plan.most_late + 1) : 0;
}

static void make_own(struct timer *timer, void (*function)(void *), void *data, unsigned int processor)
{
    memset(timer, 0, sizeof(*timer));
    timer->function = function;
    timer->data = data;
    timer->cpu = processor;
    timer->status = TIMER_STATUS_inactive;
}

static void set_own(struct timer *timer, s_time_t expires)
{
    if ( timer->status == TIMER_STATUS_killed )
        return;
    BUG_ON(timer->status == TIMER_STATUS_invalid);
    if ( timer->status != TIMER_STATUS_in_heap )
    {
        BUG_ON(timer_count == ARRAY_SIZE(timers));
        timer->heap_offset = timer_count;
        timer->status = TIMER_STATUS_in_heap;
        timers[timer_count++] = timer;
    }
    timer->expires = expires;
    noticed[timer->heap_offset] = expires + chance_of_lateness();
}

static void stop_own(struct timer *timer)
{
    unsigned int hole = timer->heap_offset;
    if ( timer->status != TIMER_STATUS_in_heap )
        return;
    timers[hole] = timers[--timer_count];
    noticed[hole] = noticed[timer_count];
    timers[hole]->heap_offset = hole;
    timer->status = TIMER_STATUS_inactive;
}

static void migrate_own(struct timer *timer, unsigned int processor)
{
    if ( timer->status != TIMER_STATUS_killed )
        timer->cpu = processor;
}

static void kill_own(struct timer *timer)
{
    stop_own(timer);
    timer->status = TIMER_STATUS_killed;
}

/* ---- What a timer brings about ---- */
unsigned long timer_events;             /* timers that brought something about */

/* Whether the core of the processor is to decide already, so that its time to ask again brings nothing about. */
static bool is_asked_already(unsigned int processor)
{
    return get_sched_res(processor)->curr->rendezvous_in_cnt || is_asked(processor / core_size * core_size);
}

static void call_timer(const struct timer *timer, void (*function)(void *), void *data)
{
    unsigned int processor = timer->cpu;
    bool is_slice = timer == &get_sched_res(processor)->s_timer, is_nothing = is_slice && is_asked_already(processor);
    if ( plan.whole && is_slice && !is_nothing )
        tell("slice c%u", processor / core_size);
    timer_events += !is_nothing;
    is_timer_running = true;
    function(data);
    is_timer_running = false;
}

static long comes_at(int place, const long *stalled_until)
{
    return max(noticed[place], stalled_until[timers[place]->cpu]);
}

static long next_own(const long *stalled_until)
{
    long best = LONG_MAX;
    int place;
    for ( place = 0; place < timer_count; place++ )
        best = min(best, comes_at(place, stalled_until));
    return best;
}

static int run_own(const long *stalled_until)
{
    int place;
    for ( place = 0; place < timer_count; place++ )
        if ( comes_at(place, stalled_until) <= present_moment )
        {
            struct timer *timer = timers[place];
            int processor = timer->cpu;
            stop_own(timer);
            present_cpu = processor;
            call_timer(timer, timer->function, timer->data);
            present_cpu = TOOLSTACK;
            return processor;
        }
    return -1;
}

/* ---- Xen's own: timer_names.h gives what timer.c has these names ---- */
void xen_init_timer(struct timer *timer, void (*function)(void *), void *data, unsigned int processor);
void xen_set_timer(struct timer *timer, s_time_t expires);
void xen_stop_timer(struct timer *timer);
void xen_migrate_timer(struct timer *timer, unsigned int processor);
void xen_kill_timer(struct timer *timer);

static long programmed[NR_CPUS];        /* when the clock of each processor interrupts, none where it is not set */
static softirq_handler handle_timers;

/* The harness calls the handler too, where a processor has no thread of control that goes on. */
void open_timer_softirq(int number, softirq_handler handler)
{
    handle_timers = handler;
    open_softirq(number, handler);
}

int reprogram_timer(s_time_t moment)
{
    programmed[present_cpu] = moment;
    return !moment || moment > present_moment;
}

/* A timer of Xen's, with what it is to call. */
struct call {
    const struct timer *timer;
    void (*function)(void *);
    void *data;
};

static void make_call(void *data)
{
    const struct call *it = data;
    call_timer(it->timer, it->function, it->data);
}

static void make_xens(struct timer *timer, void (*function)(void *), void *data, unsigned int processor)
{
    struct call *it = host_memory(sizeof(*it));
    *it = (struct call){ timer, function, data };
    xen_init_timer(timer, make_call, it, processor);
}

static long next_interrupt(const long *stalled_until)
{
    long best = LONG_MAX;
    unsigned int processor;
    for ( processor = 0; processor < plan.processors; processor++ )
        if ( programmed[processor] )
            best = min(best, max(programmed[processor], stalled_until[processor]));
    return best;
}

/* A processor whose clock interrupts, or whose first timer is another one now. One in the midst of a switch comes to it behind that. */
static int run_interrupt(const long *stalled_until)
{
    unsigned int processor;
    for ( processor = 0; processor < plan.processors; processor++ )
    {
        if ( stalled_until[processor] > present_moment )
            continue;
        if ( programmed[processor] && programmed[processor] <= present_moment )
        {
            programmed[processor] = 0;
            set_bit(TIMER_SOFTIRQ, &softirq_pending(processor));
        }
        if ( !is_at_rest(processor) || !test_and_clear_bit(TIMER_SOFTIRQ, &softirq_pending(processor)) )
            continue;
        present_cpu = processor;
        handle_timers();
        present_cpu = TOOLSTACK;
        return processor;
    }
    return -1;
}

/* The parameter timer_slop of Xen's command line. */
void set_slop(long nanoseconds)
{
    char text[24];
    host_write(text, sizeof(text), "%ld", nanoseconds);
    set_parameter("timer_slop", text);
}

/* ---- What Xen's files and the harness call ---- */
void init_timer(struct timer *timer, void (*function)(void *), void *data, unsigned int processor)
{
    (plan.has_xens_timers ? make_xens : make_own)(timer, function, data, processor);
}

void set_timer(struct timer *timer, s_time_t expires)
{
    (plan.has_xens_timers ? xen_set_timer : set_own)(timer, expires);
}

void stop_timer(struct timer *timer)
{
    (plan.has_xens_timers ? xen_stop_timer : stop_own)(timer);
}

void migrate_timer(struct timer *timer, unsigned int processor)
{
    (plan.has_xens_timers ? xen_migrate_timer : migrate_own)(timer, processor);
}

void kill_timer(struct timer *timer)
{
    (plan.has_xens_timers ? xen_kill_timer : kill_own)(timer);
}

/* When the first timer comes, LONG_MAX where none is set. */
long next_timer(const long *stalled_until)
{
    return (plan.has_xens_timers ? next_interrupt : next_own)(stalled_until);
}

/* Runs what has come on one processor: a timer of the harness, or all of that processor's of Xen. Which processor that is, -1 where none has come. */
int run_timer(const long *stalled_until)
{
    return (plan.has_xens_timers ? run_interrupt : run_own)(stalled_until);
}
