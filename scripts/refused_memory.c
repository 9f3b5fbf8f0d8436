/* Loaded before a program (LD_PRELOAD): refuses its requests for memory from one number to another, counted from 1, which the names
   REFUSED_FROM and REFUSED_TO of the environment have. At the end it writes to standard error how many requests were made. */
#include <stdio.h>
#include <stdlib.h>
#include <unistd.h>

/* The C library's own calls (glibc). */
void *__libc_malloc(size_t size);
void *__libc_realloc(void *block, size_t size);

static unsigned long from, to, made;

static unsigned long number(const char *name) {
    const char *text = getenv(name);
    return text ? strtoul(text, NULL, 10) : 0;
}

static int is_refused(void) {
    made += 1;
    return from <= made && made <= to;
}

void *malloc(size_t size) {
    return is_refused() ? NULL : __libc_malloc(size);
}

void *realloc(void *block, size_t size) {
    return is_refused() ? NULL : __libc_realloc(block, size);
}

/* What was asked for before this is not the program's. */
__attribute__((constructor)) static void begin(void) {
    from = number("REFUSED_FROM");
    to = number("REFUSED_TO");
    made = 0;
}

__attribute__((destructor)) static void end(void) {
    char text[32];
    int length = snprintf(text, sizeof text, "%lu", made);
    if (write(2, text, length) != length) _exit(99);
}
