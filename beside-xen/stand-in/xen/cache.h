#pragma once
#include <asm/cache.h>
#define __cacheline_aligned
