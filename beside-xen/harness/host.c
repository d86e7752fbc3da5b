/* The one file that is compiled with the host's headers and none of Xen's. */
#define _GNU_SOURCE
#include <signal.h>
#include <stdarg.h>
#include <stdio.h>
#include <stdlib.h>
#include <string.h>
#include <ucontext.h>
#include "host.h"

enum { THREADS = 64, STACK = 1 << 18, BLOCK = 1 << 16 };
static ucontext_t caller, threads[THREADS];
static FILE *input;

void *host_memory(unsigned long size)
{
    void *memory = calloc(1, size ? size : 1);
    if (!memory) {
        host_complain("no memory\n");
        host_end(8);
    }
    return memory;
}

void host_release(void *memory)
{
    free(memory);
}

void host_print(const char *format, ...)
{
    va_list values;
    va_start(values, format);
    vprintf(format, values);
    va_end(values);
}

/* Entries that are kept back. */
static FILE *behind;
static char *kept;
static size_t kept_size;

unsigned long entry_count;

void host_entry(long moment, const char *format, ...)
{
    FILE *out = behind ? behind : stdout;
    va_list values;
    entry_count++;
    va_start(values, format);
    fprintf(out, "%ld ", moment);
    vfprintf(out, format, values);
    putc('\n', out);
    va_end(values);
}

void host_keep_back(void)
{
    behind = open_memstream(&kept, &kept_size);
}

void host_go_ahead(void)
{
    fclose(behind);
    behind = NULL;
}

void host_follow(void)
{
    fwrite(kept, kept_size, 1, stdout);
    free(kept);
}

void host_write(char *text, int size, const char *format, ...)
{
    va_list values;
    va_start(values, format);
    vsnprintf(text, size, format, values);
    va_end(values);
}

void host_complain(const char *format, ...)
{
    va_list values;
    va_start(values, format);
    fputs("beside: ", stderr);
    vfprintf(stderr, format, values);
    va_end(values);
}

/*
 * Xen's trace file: for each processor a window of its records after a record that names the processor and the window's
 * length in bytes. A record is a word of event (bits 0 to 27), count of values (28 to 30) and whether it has a moment (31),
 * two words of cycles, the low one first, and the values. No time passes while Xen's code runs, and xenalyze orders the records
 * of all processors by their cycles, so a nanosecond has 1024 cycles: the records of one moment stand at one cycle each, in order.
 */
enum { CYCLES = 1024, WINDOW = 1 << 15, CPU_CHANGE = 0x0001f003 };
static struct window { unsigned int used; unsigned char bytes[WINDOW]; } windows[THREADS];
static FILE *trace;

static void write_windows(void)
{
    unsigned int processor;
    for (processor = 0; processor < THREADS; processor++) {
        struct window *it = &windows[processor];
        unsigned int head[3] = { CPU_CHANGE | 2u << 28, processor, it->used };
        if (!it->used)
            continue;
        fwrite(head, sizeof head, 1, trace);
        fwrite(it->bytes, it->used, 1, trace);
        it->used = 0;
    }
}

void host_trace(unsigned int processor, unsigned long moment, unsigned int event, unsigned int size, const void *values)
{
    static int is_tried;
    static unsigned long last;
    unsigned long cycle = last = moment * CYCLES > last ? moment * CYCLES : last + 1;
    unsigned int words = (size + 3) / 4, head[3] = { event | words << 28 | 1u << 31, cycle, cycle >> 32 };
    struct window *it = &windows[processor];
    if (!is_tried++ && getenv("XENTRACE"))
        trace = fopen(getenv("XENTRACE"), "w");
    if (!trace)
        return;
    if (it->used + sizeof head + 4 * words > WINDOW)
        write_windows();
    memcpy(it->bytes + it->used, head, sizeof head);
    memset(it->bytes + it->used + sizeof head, 0, 4 * words);
    memcpy(it->bytes + it->used + sizeof head, values, size);
    it->used += sizeof head + 4 * words;
}

void host_end_trace(void)
{
    if (!trace)
        return;
    write_windows();
    fclose(trace);
}

void host_end(int status)
{
    host_end_trace();
    fflush(stdout);
    fflush(stderr);
    _Exit(status);
}

void host_open(const char *name)
{
    static char block[BLOCK];
    input = strcmp(name, "-") ? fopen(name, "r") : stdin;
    if (!input) {
        perror(name);
        exit(2);
    }
    setvbuf(stdout, block, _IOFBF, sizeof block);
}

int host_word(char *word, int size)
{
    char form[16];
    snprintf(form, sizeof form, "%%%ds", size - 1);
    return fscanf(input, form, word) == 1;
}

long host_number(void)
{
    long number;
    if (fscanf(input, "%ld", &number) != 1) {
        host_complain("a number is missing\n");
        host_end(2);
    }
    return number;
}

long host_number_of(const char *word)
{
    return strtol(word, NULL, 10);
}

void host_make_thread(int number, void (*body)(void))
{
    getcontext(&threads[number]);
    threads[number].uc_stack.ss_sp = host_memory(STACK);
    threads[number].uc_stack.ss_size = STACK;
    threads[number].uc_link = NULL;
    makecontext(&threads[number], body, 0);
}

void host_go_on(int number)
{
    swapcontext(&caller, &threads[number]);
}

void host_stop(int number)
{
    swapcontext(&threads[number], &caller);
}

extern int simulate(void);
extern void stop_at_address(void *code);

/* Xen's code follows a pointer to nothing: what was told so far is written, and the signal ends the program. */
static void end_by_signal(int signal_number, siginfo_t *about, void *context)
{
    void *code = NULL;                  /* where, as far as the host says it */
#ifdef __x86_64__
    code = (void *)((ucontext_t *)context)->uc_mcontext.gregs[REG_RIP];
#endif
    stop_at_address(code);
    fflush(stdout);
    signal(signal_number, SIG_DFL);
    raise(signal_number);
}

int main(int words, char **word)
{
    if (words != 2) {
        host_complain("usage: beside INPUT\n");
        return 1;
    }
    sigaction(SIGSEGV, &(struct sigaction){ .sa_sigaction = end_by_signal, .sa_flags = SA_SIGINFO }, NULL);
    host_open(word[1]);
    host_end(simulate());
}
