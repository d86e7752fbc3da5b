#pragma once
typedef unsigned char nodeid_t;
#define NODES_SHIFT 0
#define cpu_to_node(cpu) (0u * (cpu))
#define node_to_cpumask(n) (cpu_online_map)
