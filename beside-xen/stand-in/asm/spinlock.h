#pragma once
#define arch_lock_signal_wmb() barrier()
