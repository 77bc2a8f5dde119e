/* Counts the heap of the program that it is loaded before (LD_PRELOAD): what the C library gave for what the program holds.
 *
 * SIGUSR1 begins a count: what is held then is what it begins with, and the most so far. SIGUSR2 leaves the count as it is. Each
 * prints both, in bytes, as one line on the errors stream.
 */

#define _GNU_SOURCE
#include <malloc.h>
#include <signal.h>
#include <stdio.h>
#include <stdlib.h>
#include <unistd.h>

extern void *__libc_malloc(size_t size);
extern void *__libc_calloc(size_t count, size_t size);
extern void *__libc_realloc(void *old, size_t size);
extern void __libc_free(void *memory);

static long held, begun, most;

static void *count(void *memory) {
    if (memory) held += malloc_usable_size(memory);
    if (held > most) most = held;
    return memory;
}

void *malloc(size_t size) { return count(__libc_malloc(size)); }

void *calloc(size_t number, size_t size) { return count(__libc_calloc(number, size)); }

void *realloc(void *old, size_t size) {
    long before = old ? malloc_usable_size(old) : 0;
    void *memory = __libc_realloc(old, size);
    if (memory) held -= before;
    return count(memory);
}

void free(void *memory) {
    if (memory) held -= malloc_usable_size(memory);
    __libc_free(memory);
}

static void tell(int number) {
    (void)number;
    char line[64];
    int length = snprintf(line, sizeof line, "%ld %ld\n", begun, most);
    if (write(2, line, length) != length) _exit(1);
}

static void begin(int number) {
    begun = most = held;
    tell(number);
}

__attribute__((constructor)) static void ready(void) {
    signal(SIGUSR1, begin);
    signal(SIGUSR2, tell);
}
