#pragma once
#define perfc_incr(counter) ((void)0)
