#pragma once
#include <xen/types.h>
#include <public/sysctl.h>
#include <public/trace.h>
/* Xen's own trace records go to the harness. */
extern int tb_init_done;
void take_trace(u32 event, unsigned int size, const void *record);
#define __trace_var(event, cycles, size, record) take_trace(event, size, record)
#define trace_var(event, cycles, size, record) take_trace(event, size, record)
#define TRACE_0D(event) take_trace(event, 0, NULL)
#define TRACE_OF(event, values...) do { u32 d_[] = { values }; take_trace(event, sizeof(d_), d_); } while (0)
#define TRACE_1D TRACE_OF
#define TRACE_2D TRACE_OF
#define TRACE_3D TRACE_OF
#define TRACE_4D TRACE_OF
