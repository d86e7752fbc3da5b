#pragma once
#define preempt_disable() do { } while (0)
#define preempt_enable() do { } while (0)
#define in_atomic() 0
#define ASSERT_NOT_IN_ATOMIC() do { } while (0)
