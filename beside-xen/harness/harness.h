/* The parts of the harness, for one another. Moments and spans are in nanoseconds, as everywhere in Xen's scheduler. */
#pragma once
#include <xen/lib.h>
#include <xen/sched.h>
#include <xen/softirq.h>
#include <private.h>
#include "host.h"

enum {
    MAX_DOMAINS = 64,
    MAX_POOLS = 16,
    MAX_WINDOWS = 64,
    MAX_GUESTS = 32,
    MAX_LINES = 8192,
    MAX_FRAMES = 256,
    TOOLSTACK = NR_CPUS - 1             /* where commands come from; no processor of the machine has this number */
};

struct frame {
    long major;
    int count;
    struct window { long domain, unit, run; } windows[MAX_WINDOWS];
};

struct pool_plan {
    int kind;                           /* its place in kinds[] */
    long rate_limit;                    /* in microseconds */
    unsigned long processors;
    struct frame frame;
};

struct domain_plan {
    int pool, vcpus;
    long weight, cap, period, budget, extra;
    long *scripts[MAX_GUESTS];
    int lengths[MAX_GUESTS];
    unsigned long pins[MAX_GUESTS];     /* of each unit; none where it may be anywhere */
};

enum what { STALL, CREDIT2, RATE, RTDS, PAUSE, UNPAUSE, FRAME, CREATE, DESTROY, ADD, REMOVE, MIGRATE, PIN, NAME, WHATS };

struct line {
    long at;
    enum what what;
    long values[5];
    struct frame *frame;
};

/* The machine as the input describes it. */
struct plan {
    int processors, pool_count, domain_count, line_count;
    long horizon;
    long origin;                        /* Xen's clock at the moment 0 of the files */
    bool apart;                         /* the vCPUs start one after the other, all at 0 */
    bool by_rank;                       /* the order of a moment is that of xensched's ordered run */
    bool whole;                         /* the log has each entry of a schedule, with its fields */
    bool is_shuffled;                   /* the processors go on in an order that chance has */
    long most_late;                     /* how late a timer may be noticed */
    unsigned long seed;
    bool has_xens_timers;               /* timer.c keeps the timers, and not the harness */
    long slop;                          /* its timer_slop from the moment 0 on */
    struct pool_plan pools[MAX_POOLS];
    struct domain_plan domains[MAX_DOMAINS];
    struct line lines[MAX_LINES];
};
extern struct plan plan;
extern const int kinds[4];
extern const char *const kind_names[4];

/* input.c */
void read_input(void);
void set_parameter(const char *name, const char *value);

/* clock and log; nothing is told before the moment 0 */
extern long present_moment;
extern bool is_begun;
#define tell(...) do { if ( is_begun ) host_entry(present_moment - plan.origin, __VA_ARGS__); } while (0)

/* services.c */
extern struct domain *domains[MAX_DOMAINS];
void start_processor(unsigned int number);
unsigned long chance(void);

/* timers.c */
extern bool is_timer_running;           /* what happens now, a timer brought about */
extern unsigned long timer_events;      /* timers that brought something about */
long chance_of_lateness(void);
long next_timer(const long *stalled_until);
int run_timer(const long *stalled_until);
void set_slop(long nanoseconds);

/* boot.c */
void boot(void);
void begin(void);

/* commands.c */
bool has_extra_time(int domain, int unit);
long period_of(int domain, int unit);
long set_credit2(int domain, int weight, int cap);
long set_rtds(int domain, int vcpu, long period, long budget, int extra);
long set_frame(int pool, const struct frame *frame);
long set_rate_limit(int pool, long microseconds);
long change_pool(int what, int pool, int processor, int domain, int kind);
long pin_unit(int domain, int unit, unsigned long processors);
void carry_out(const struct line *line);

/* machine.c */
extern long stalled_until[NR_CPUS];
void settle(void);
void look(int pool);
bool is_asked(unsigned int first);
bool is_at_rest(unsigned int processor);
bool run_timers(void);
void run_moment(void);
long next_moment(void);
void make_processors(void);
extern int next_line;

/* where a processor stands in a switch of contexts */
enum place { AT_REST, BEFORE_LEAVING, BEFORE_SAVING };
void stand_at(unsigned int processor, enum place place);

/* guests.c */
extern unsigned long record_count;      /* Xen's own trace records so far */
long done_at(unsigned int processor);
void hold_guest(unsigned int processor);
void wait_for_siblings(unsigned int processor);
void block_guest(unsigned int processor);
void wake_guest(struct vcpu *vcpu);
