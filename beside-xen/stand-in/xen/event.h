#pragma once
#include <xen/sched.h>
#include <xen/softirq.h>
#define local_events_need_delivery() 0
#define local_event_delivery_enable() do { } while (0)
#define arch_vcpu_block(v) ((void)(v))
#define arch_move_irqs(v) ((void)(v))
#define evtchn_move_pirqs(v) ((void)(v))
#define evtchn_port_poll(d, p) 0
#define send_timer_event(v) ((void)(v))
#define port_is_valid(d, p) true
#define evtchn_port_is_pending(d, p) false
