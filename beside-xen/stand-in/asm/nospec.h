#pragma once
#define evaluate_nospec(c) (c)
#define block_speculation() do { } while (0)
