#pragma once
void stop_at_bug(const char *what, const char *file, int line) __attribute__((__noreturn__));
#define BUG() stop_at_bug("BUG", __FILE__, __LINE__)
#define assert_failed(m) stop_at_bug("ASSERT " m, __FILE__, __LINE__)
#define WARN() printk("WARN %s:%d\n", __FILE__, __LINE__)
