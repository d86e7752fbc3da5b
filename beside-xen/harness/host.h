/* What the harness takes from the host: memory, text, and a thread of control for each processor. */
#pragma once
void *host_memory(unsigned long size);              /* filled with zeros */
void host_release(void *memory);
void host_print(const char *format, ...) __attribute__((__format__(__printf__, 1, 2)));
extern unsigned long entry_count;         /* entries told so far */
void host_entry(long moment, const char *format, ...) __attribute__((__format__(__printf__, 2, 3)));
void host_keep_back(void);                          /* entries from now on stand behind one that is not known yet */
void host_go_ahead(void);                           /* it comes now */
void host_follow(void);                             /* and those that were kept back follow */
void host_write(char *text, int size, const char *format, ...) __attribute__((__format__(__printf__, 3, 4)));
void host_complain(const char *format, ...) __attribute__((__format__(__printf__, 1, 2)));
void host_end(int status) __attribute__((__noreturn__));

/* A record of Xen's trace, into the file that the variable XENTRACE names. At the end what is left is written. */
void host_trace(unsigned int processor, unsigned long moment, unsigned int event, unsigned int size, const void *values);
void host_end_trace(void);

/* The words of the input, which is a list of words parted by white space. */
void host_open(const char *name);
int host_word(char *word, int size);                /* whether there was one */
long host_number(void);
long host_number_of(const char *word);

/* A thread of control goes on where it stopped, until it stops again. */
void host_make_thread(int number, void (*body)(void));
void host_go_on(int number);
void host_stop(int number);
