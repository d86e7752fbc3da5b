/* What Xen's scheduler files ask of the rest of Xen: locks, memory, timers, domains. */
#include "harness.h"
#include <xen/cpu.h>
#include <xen/event.h>

unsigned int present_cpu, core_size = 1, siblings = 1, socket_size = NR_CPUS;
struct vcpu *current_vcpus[NR_CPUS];
unsigned int nr_cpu_ids = NR_CPUS;
cpumask_t cpu_online_map;
const cpumask_t cpumask_all = { .bits = { ~0ul } };
DEFINE_PER_CPU(cpumask_var_t, cpu_sibling_mask);
DEFINE_PER_CPU(cpumask_var_t, cpu_core_mask);
DEFINE_PER_CPU(unsigned int, rcu_lock_cnt);
DEFINE_PER_CPU(unsigned long, tasklet_work_to_do);
struct domain *domain_list, *hardware_domain;
struct vcpu *idle_vcpu[NR_CPUS];
bool_t opt_dom0_vcpus_pin;
enum system_state system_state = SYS_STATE_active;
int tb_init_done = 1;                   /* trace records are taken */

/* Row n + 1 has bit n of its first word set, and nothing else: sets of one processor are found in it. */
#define ROW(n) [(n) + 1] = { 1ul << (n) }
#define ROWS(n) ROW(n), ROW((n) + 1), ROW((n) + 2), ROW((n) + 3), ROW((n) + 4), ROW((n) + 5), ROW((n) + 6), ROW((n) + 7)
const unsigned long cpu_bit_bitmap[BITS_PER_LONG + 1][BITS_TO_LONGS(NR_CPUS)] = {
    ROWS(0), ROWS(8), ROWS(16), ROWS(24), ROWS(32), ROWS(40), ROWS(48), ROWS(56)
};

void stop_at_bug(const char *what, const char *file, int line)
{
    host_complain("%s at %s:%d, moment %ld\n", what, file, line, present_moment - plan.origin);
    host_end(70);
}

/* The host's signal that an address is none. */
void stop_at_address(void *code)
{
    host_complain("no such address, in the code at %p, moment %ld\n", code, present_moment - plan.origin);
}

void panic(const char *format, ...)
{
    stop_at_bug(format, "panic", 0);
}

void printk(const char *format, ...) { }
void warning_add(const char *text) { }
s_time_t get_s_time(void) { return present_moment; }
unsigned int get_random(void) { return 1; }

/* Locks. The host's one thread runs all, so a lock that is held belongs to a processor that waits. */
static bool take_if_free(spinlock_t *lock)
{
    if ( lock->tickets.head_tail )
        return false;
    lock->tickets.head_tail = 1;
    return true;
}

void _spin_lock(spinlock_t *lock)
{
    while ( !take_if_free(lock) )
        let_others_run();
}

void _spin_unlock(spinlock_t *lock)
{
    BUG_ON(!lock->tickets.head_tail);
    lock->tickets.head_tail = 0;
}

void _spin_lock_irq(spinlock_t *lock) { _spin_lock(lock); }
unsigned long _spin_lock_irqsave(spinlock_t *lock) { _spin_lock(lock); return 0; }
void _spin_unlock_irq(spinlock_t *lock) { _spin_unlock(lock); }
void _spin_unlock_irqrestore(spinlock_t *lock, unsigned long flags) { _spin_unlock(lock); }
int _spin_is_locked(spinlock_t *lock) { return lock->tickets.head_tail != 0; }
int _spin_trylock(spinlock_t *lock) { return take_if_free(lock); }

/* Memory */
void *_xmalloc(unsigned long size, unsigned long align) { return host_memory(size); }
void *_xzalloc(unsigned long size, unsigned long align) { return host_memory(size); }

void xfree(void *memory)
{
    if ( memory != ZERO_BLOCK_PTR )
        host_release(memory);
}

/* Read-copy-update and processors that come up. Nobody reads while another writes. */
static struct notifier_block *notified[8];
static int notified_count;

void call_rcu(struct rcu_head *head, void (*function)(struct rcu_head *)) { function(head); }
int rcu_pending(int processor) { return 0; }
void rcu_check_callbacks(int processor) { }
void smp_send_event_check_mask(const cpumask_t *mask) { }

void register_cpu_notifier(struct notifier_block *block)
{
    BUG_ON(notified_count == ARRAY_SIZE(notified));
    notified[notified_count++] = block;
}

void start_processor(unsigned int number)
{
    int place;
    for ( place = 0; place < notified_count; place++ )
        notified[place]->notifier_call(notified[place], CPU_UP_PREPARE, (void *)(unsigned long)number);
    cpumask_set_cpu(number, &cpu_online_map);
}

/* The next number of a generator of Knuth's. */
unsigned long chance(void)
{
    plan.seed = plan.seed * 6364136223846793005ul + 1442695040888963407ul;
    return plan.seed >> 33;
}

/* Domains */
struct domain *domains[MAX_DOMAINS];

#if XEN_MINOR < 15
struct domain *domain_create(domid_t number, struct xen_domctl_createdomain *config, bool flags)
#else
struct domain *domain_create(domid_t number, struct xen_domctl_createdomain *config, unsigned int flags)
#endif
{
    struct domain *domain = host_memory(sizeof(*domain));
    domain->domain_id = number;
    domain->auto_node_affinity = true;
    spin_lock_init(&domain->node_affinity_lock);
    __nodes_setall(&domain->node_affinity, MAX_NUMNODES);
    return domain;
}

static void join_list(struct vcpu *vcpu, struct vcpu *before)
{
    vcpu->next_in_list = before->next_in_list;
    before->next_in_list = vcpu;
}

struct vcpu *vcpu_create(struct domain *domain, unsigned int number)
{
    struct vcpu *vcpu = host_memory(sizeof(*vcpu));
    bool idles = is_idle_domain(domain);
    vcpu->domain = domain;
    vcpu->vcpu_id = number;
    vcpu->dirty_cpu = VCPU_CPU_CLEAN;
    vcpu->arch.left = vcpu->arch.wakes = -1;
    vcpu->runstate.state = idles ? RUNSTATE_running : RUNSTATE_offline;
    vcpu->runstate.state_entry_time = idles ? 0 : NOW();
    vcpu->new_state = idles ? RUNSTATE_running : 0;
    if ( !idles )
        set_bit(_VPF_down, &vcpu->pause_flags);
    if ( sched_init_vcpu(vcpu) )
        return NULL;
    domain->vcpu[number] = vcpu;
    if ( number && domain->vcpu[number - 1] )
        join_list(vcpu, domain->vcpu[number - 1]);
    return vcpu;
}

/* Xen puts one vCPU after the other to sleep, and waits for each. By rank all their cores are to decide before it waits. */
void domain_pause(struct domain *domain)
{
    struct vcpu *vcpu;
    atomic_inc(&domain->pause_count);
    if ( plan.by_rank )
        for_each_vcpu ( domain, vcpu )
            vcpu_sleep_nosync(vcpu);
    for_each_vcpu ( domain, vcpu )
        vcpu_sleep_sync(vcpu);
}

void domain_unpause(struct domain *domain)
{
    struct vcpu *vcpu;
    if ( !atomic_dec_and_test(&domain->pause_count) )
        return;
    for_each_vcpu ( domain, vcpu )
    {
        vcpu_wake(vcpu);
        look(domain->cpupool->cpupool_id);
    }
}

struct domain *rcu_lock_domain_by_id(domid_t number)
{
    return number < MAX_DOMAINS ? domains[number] : NULL;
}

int rcu_lock_remote_domain_by_id(domid_t number, struct domain **domain)
{
    *domain = rcu_lock_domain_by_id(number);
    if ( !*domain )
        return -ESRCH;
    rcu_read_lock(&(*domain)->rcu_lock);
    return 0;
}

int domain_shutdown(struct domain *domain, u8 reason) { BUG(); return 0; }
void sync_vcpu_execstate(struct vcpu *vcpu) { }

/* Runs at once. The toolstack tries again where a vCPU is still on its way from the processor. */
int continue_hypercall_on_cpu(unsigned int processor, long (*function)(void *), void *data)
{
    long answer;
    while ( (answer = function(data)) == -EAGAIN )
        let_others_run();
    return answer;
}

#if XEN_MINOR < 15
/* In these versions they are part of domctl.c. None of the commands here passes a set of processors so. */
int xenctl_bitmap_to_bitmap(unsigned long *bitmap, const struct xenctl_bitmap *from, unsigned int bits) { BUG(); return 0; }
int cpumask_to_xenctl_bitmap(struct xenctl_bitmap *to, const cpumask_t *mask) { BUG(); return 0; }
#endif
