/* A library to load before a program (LD_PRELOAD) that refuses some of the program's requests for memory.
 *
 * Requests are counted between the lines "@refuse" and "@ample" that the program writes to its standard output, or with
 * REFUSE_ALL=1 from its start to its end. REFUSE says which are refused: "N" only the Nth, "N.." the Nth and all after it,
 * "0" or nothing none. When the program ends, the file that REFUSE_REPORT names gets a line with how many requests were
 * counted and how many of them were refused; a program that a signal ends writes none. */
#define _GNU_SOURCE
#include <dlfcn.h>
#include <errno.h>
#include <fcntl.h>
#include <limits.h>
#include <stddef.h>
#include <stdio.h>
#include <stdlib.h>
#include <string.h>
#include <unistd.h>

extern void *__libc_malloc(size_t);
extern void *__libc_calloc(size_t, size_t);
extern void *__libc_realloc(void *, size_t);
extern void *__libc_memalign(size_t, size_t);

typedef ssize_t write_function(int, const void *, size_t);

static int is_counting;
static unsigned long requests, refusals, first, last;

static write_function *real_write(void) {
    static write_function *found;
    if (found == NULL) found = (write_function *)dlsym(RTLD_NEXT, "write");
    return found;
}

__attribute__((constructor)) static void begin(void) {
    const char *which = getenv("REFUSE");
    if (which != NULL && *which != 0) {
        char *end;
        first = strtoul(which, &end, 10);
        last = strcmp(end, "..") == 0 ? ULONG_MAX : first;
    }
    /* (looked up now, since looking it up may take memory) */
    real_write();
    const char *all = getenv("REFUSE_ALL");
    is_counting = all != NULL && *all == '1';
}

__attribute__((destructor)) static void report(void) {
    is_counting = 0;
    const char *path = getenv("REFUSE_REPORT");
    if (path == NULL) return;
    int file = open(path, O_WRONLY | O_CREAT | O_TRUNC, 0644);
    if (file < 0) return;
    char line[64];
    int length = snprintf(line, sizeof line, "%lu %lu\n", requests, refusals);
    ssize_t written = real_write()(file, line, (size_t)length);
    (void)written;
    close(file);
}

static int is_refused(void) {
    if (!is_counting) return 0;
    requests++;
    if (first == 0 || requests < first || requests > last) return 0;
    refusals++;
    errno = ENOMEM;
    return 1;
}

void *malloc(size_t size) { return is_refused() ? NULL : __libc_malloc(size); }

void *calloc(size_t count, size_t size) { return is_refused() ? NULL : __libc_calloc(count, size); }

void *realloc(void *old, size_t size) { return size != 0 && is_refused() ? NULL : __libc_realloc(old, size); }

void *memalign(size_t align, size_t size) { return is_refused() ? NULL : __libc_memalign(align, size); }

void *aligned_alloc(size_t align, size_t size) { return memalign(align, size); }

int posix_memalign(void **out, size_t align, size_t size) {
    if (is_refused()) return ENOMEM;
    void *block = __libc_memalign(align, size);
    if (block == NULL) return ENOMEM;
    *out = block;
    return 0;
}

static ssize_t write_and_look(int file, const void *bytes, size_t count) {
    if (file == STDOUT_FILENO && count >= 7 && memcmp(bytes, "@refuse", 7) == 0) is_counting = 1;
    if (file == STDOUT_FILENO && count >= 6 && memcmp(bytes, "@ample", 6) == 0) is_counting = 0;
    return real_write()(file, bytes, count);
}

/* Programs call it by both names. */
ssize_t write(int file, const void *bytes, size_t count) { return write_and_look(file, bytes, count); }

ssize_t __write(int file, const void *bytes, size_t count) { return write_and_look(file, bytes, count); }
