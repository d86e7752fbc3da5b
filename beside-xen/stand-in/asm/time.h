#pragma once
typedef u64 cycles_t;
