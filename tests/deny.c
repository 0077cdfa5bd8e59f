// Counts a program's requests for memory, and refuses the one whose number, from 1, stands in DENY. Loaded before the C library
// (LD_PRELOAD), it stands in front of that of glibc. At the end it writes the count into the file that DENY_COUNT names.
#include <fcntl.h>
#include <stdio.h>
#include <stdlib.h>
#include <unistd.h>

extern void *__libc_malloc(size_t size);
extern void *__libc_calloc(size_t count, size_t size);
extern void *__libc_realloc(void *block, size_t size);

static unsigned long requests;
static unsigned long denied;

__attribute__((constructor)) static void begin(void) {
    const char *number = getenv("DENY");
    denied = number ? strtoul(number, NULL, 10) : 0;
    requests = 0;
}

static int is_denied(void) {
    return ++requests == denied;
}

void *malloc(size_t size) {
    return is_denied() ? NULL : __libc_malloc(size);
}

void *calloc(size_t count, size_t size) {
    return is_denied() ? NULL : __libc_calloc(count, size);
}

void *realloc(void *block, size_t size) {
    return is_denied() ? NULL : __libc_realloc(block, size);
}

__attribute__((destructor)) static void end(void) {
    const char *name = getenv("DENY_COUNT");
    char text[32];
    int length = snprintf(text, sizeof text, "%lu\n", requests);
    int file = name ? open(name, O_WRONLY | O_CREAT | O_TRUNC, 0600) : -1;
    if (file >= 0 && (write(file, text, length) != length || close(file) != 0))
        _exit(111);
}
