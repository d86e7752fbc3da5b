/* The input: a list of words that `plan.py` writes for a domain file and a work file. */
#include "harness.h"
#include <xen/param.h>

struct plan plan;
const int kinds[4] = { XEN_SCHEDULER_CREDIT2, XEN_SCHEDULER_RTDS, XEN_SCHEDULER_ARINC653, XEN_SCHEDULER_NULL };
const char *const kind_names[4] = { "credit2", "rtds", "arinc653", "null" };
static const struct { const char *name; int values; } whats[WHATS] = {
    [STALL] = { "stall", 2 }, [CREDIT2] = { "credit2", 3 }, [RATE] = { "rate", 2 }, [RTDS] = { "rtds", 5 },
    [PAUSE] = { "pause", 1 }, [UNPAUSE] = { "unpause", 1 }, [FRAME] = { "frame", 1 }, [CREATE] = { "create", 2 },
    [DESTROY] = { "destroy", 1 }, [ADD] = { "add", 2 }, [REMOVE] = { "remove", 2 }, [MIGRATE] = { "migrate", 2 },
    [PIN] = { "pin", 3 }, [NAME] = { "name", 1 },
};

static void refuse(const char *word)
{
    host_complain("the input has the word %s\n", word);
    host_end(2);
}

/* A parameter of Xen's command line. */
void set_parameter(const char *name, const char *value)
{
    extern const struct kernel_param __setup_start[], __setup_end[];
    const struct kernel_param *it;
    for ( it = __setup_start; it < __setup_end && strcmp(it->name, name); it++ )
        ;
    if ( it == __setup_end )
        refuse(name);
    if ( it->type == OPT_CUSTOM )
        BUG_ON(it->par.func(value));
    else if ( it->type == OPT_STR )
        memcpy(it->par.var, value, min(it->len + 0ul, strlen(value) + 1ul));
    else
    {
        long number = host_number_of(value);
        memcpy(it->par.var, &number, it->len);
    }
}

static unsigned long read_set(void)
{
    unsigned long set = 0;
    long count;
    for ( count = host_number(); count; count-- )
        set |= 1ul << host_number();
    return set;
}

static void read_frame(struct frame *frame)
{
    struct window *it;
    frame->major = host_number();
    frame->count = host_number();
    BUG_ON(frame->count > MAX_WINDOWS);
    for ( it = frame->windows; it < frame->windows + frame->count; it++ )
    {
        it->domain = host_number();
        it->unit = host_number();
        it->run = host_number();
    }
}

static void read_pool(void)
{
    struct pool_plan *pool = &plan.pools[plan.pool_count++];
    char word[16];
    BUG_ON(plan.pool_count > MAX_POOLS);
    host_word(word, sizeof(word));
    while ( strcmp(kind_names[pool->kind], word) )
        if ( ++pool->kind == ARRAY_SIZE(kinds) )
            refuse(word);
    pool->rate_limit = host_number();
    pool->processors = read_set();
    read_frame(&pool->frame);
}

static void read_domain(void)
{
    struct domain_plan *domain = &plan.domains[plan.domain_count++];
    BUG_ON(plan.domain_count > MAX_DOMAINS);
    domain->pool = host_number();
    domain->weight = host_number();
    domain->cap = host_number();
    domain->period = host_number();
    domain->budget = host_number();
    domain->extra = host_number();
}

/* A guest of the last domain: its script. */
static void read_guest(void)
{
    struct domain_plan *domain = &plan.domains[plan.domain_count - 1];
    int number = domain->vcpus++, place;
    BUG_ON(domain->vcpus > MAX_GUESTS);
    domain->lengths[number] = host_number();
    domain->scripts[number] = host_memory(domain->lengths[number] * sizeof(long));
    for ( place = 0; place < domain->lengths[number]; place++ )
        domain->scripts[number][place] = host_number();
}

/* Where a unit of the last domain may be. */
static void read_pins(void)
{
    long unit = host_number();
    BUG_ON(unit >= MAX_GUESTS);
    plan.domains[plan.domain_count - 1].pins[unit] = read_set();
}

static void read_line(void)
{
    struct line *line = &plan.lines[plan.line_count++];
    char word[16];
    int place;
    BUG_ON(plan.line_count > MAX_LINES);
    line->at = host_number();
    host_word(word, sizeof(word));
    while ( strcmp(whats[line->what].name, word) )
        if ( ++line->what == WHATS )
            refuse(word);
    for ( place = 0; place < whats[line->what].values; place++ )
        line->values[place] = host_number();
    if ( line->what == FRAME )
        read_frame(line->frame = host_memory(sizeof(struct frame)));
}

static void read_parameter(void)
{
    char name[64], value[64];
    host_word(name, sizeof(name));
    host_word(value, sizeof(value));
    set_parameter(name, value);
}

static void read_lateness(void)
{
    plan.most_late = host_number();
    plan.seed = host_number();
}

static void read_part(const char *word)
{
    if ( !strcmp(word, "core") ) siblings = core_size = host_number();
    else if ( !strcmp(word, "siblings") ) siblings = host_number();
    else if ( !strcmp(word, "socket") ) socket_size = host_number();
    else if ( !strcmp(word, "processors") ) plan.processors = host_number();
    else if ( !strcmp(word, "horizon") ) plan.horizon = host_number();
    else if ( !strcmp(word, "origin") ) plan.origin = host_number();
    else if ( !strcmp(word, "apart") ) plan.apart = true;
    else if ( !strcmp(word, "by-rank") ) plan.by_rank = true;
    else if ( !strcmp(word, "whole") ) plan.whole = true;
    else if ( !strcmp(word, "shuffled") ) plan.is_shuffled = true, plan.seed = host_number();
    else if ( !strcmp(word, "late") ) read_lateness();
    else if ( !strcmp(word, "slop") ) plan.has_xens_timers = true, plan.slop = host_number();
    else if ( !strcmp(word, "parameter") ) read_parameter();
    else if ( !strcmp(word, "pool") ) read_pool();
    else if ( !strcmp(word, "domain") ) read_domain();
    else if ( !strcmp(word, "guest") ) read_guest();
    else if ( !strcmp(word, "pins") ) read_pins();
    else if ( !strcmp(word, "at") ) read_line();
    else refuse(word);
}

void read_input(void)
{
    char word[64];
    while ( host_word(word, sizeof(word)) )
        read_part(word);
    BUG_ON(plan.processors >= TOOLSTACK);
}
