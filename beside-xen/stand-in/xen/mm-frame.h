#pragma once
typedef struct { unsigned long mfn; } mfn_t;
