#pragma once
#include <asm/smp.h>
/* The host, as Xen found it at boot: what of it are cores and sockets. */
#define cpu_to_socket(cpu) ((cpu) / socket_size)
#define cpu_to_core(cpu) ((cpu) / siblings)
#define cpu_nr_siblings(cpu) (siblings + 0u * (cpu))
#define prefetch(x) ((void)(x))
