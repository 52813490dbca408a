/* The allocator of bench/refused, put before that of the C library: the call REFUSE_AT, counted from 1, finds no memory.
   At the end of the process the number of calls, and how many calls found none, go to the file REFUSE_COUNT. */
#include <errno.h>
#include <fcntl.h>
#include <stddef.h>
#include <stdlib.h>
#include <unistd.h>

void *__libc_malloc(size_t size);
void *__libc_calloc(size_t count, size_t size);
void *__libc_realloc(void *old, size_t size);
void *__libc_memalign(size_t align, size_t size);

static unsigned long calls, refused, refused_at;

__attribute__((constructor)) static void begin(void) {
    const char *at = getenv("REFUSE_AT");
    refused_at = at ? strtoul(at, NULL, 10) : 0;
    calls = 0;
}

static int is_refused(void) {
    if (++calls != refused_at) return 0;
    refused++;
    errno = ENOMEM;
    return 1;
}

void *malloc(size_t size) { return is_refused() ? NULL : __libc_malloc(size); }
void *calloc(size_t count, size_t size) { return is_refused() ? NULL : __libc_calloc(count, size); }
void *realloc(void *old, size_t size) { return is_refused() ? NULL : __libc_realloc(old, size); }
void *memalign(size_t align, size_t size) { return is_refused() ? NULL : __libc_memalign(align, size); }
void *aligned_alloc(size_t align, size_t size) { return memalign(align, size); }
int posix_memalign(void **found, size_t align, size_t size) {
    void *memory = memalign(align, size);
    if (!memory) return ENOMEM;
    *found = memory;
    return 0;
}

/* in decimal digits, without a call that allocates */
static char *write_number(unsigned long number, char *end) {
    do *--end = '0' + number % 10; while (number /= 10);
    return end;
}

__attribute__((destructor)) static void end(void) {
    const char *name = getenv("REFUSE_COUNT");
    int file = name ? open(name, O_WRONLY | O_CREAT | O_TRUNC, 0600) : -1;
    if (file < 0) return;
    char text[64], *last = text + sizeof text, *first = last;
    *--first = '\n';
    first = write_number(refused, first);
    *--first = ' ';
    first = write_number(calls, first);
    if (write(file, first, last - first) < 0) _exit(99);
    close(file);
}
