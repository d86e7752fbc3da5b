#pragma once
#define NR_ARCH_SOFTIRQS 0
#define arch_skip_send_event_check(cpu) 0
