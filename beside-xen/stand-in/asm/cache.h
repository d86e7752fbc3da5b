#pragma once
#define L1_CACHE_SHIFT 7
#define L1_CACHE_BYTES 128
#define SMP_CACHE_BYTES 128
#define __read_mostly
#define __ro_after_init
