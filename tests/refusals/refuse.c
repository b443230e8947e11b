/* A library to be loaded before a program (LD_PRELOAD). It counts the program's requests for memory, and refuses one
 * of them: to the program it looks as if the system had no more memory.
 *
 *   REFUSE_NTH=N        the N-th counted request is refused, and no other one; without this setting none is refused
 *   REFUSE_MARKED=1     only requests of one part of the program are counted: the part between the first line
 *                       "[call" that it writes to standard error, and the line "[done" that follows
 *   REFUSE_REPORT=FILE  at the program's end FILE gets the line "requests N refused R left B most M large L": R is 0 or
 *                       1, B is how many bytes were allocated in the counted part and not freed there, M the most that
 *                       were allocated there at any time, and L how many of the N requests asked for LARGE bytes or more
 *
 * It is no part of the product, and no crate links it.
 */
#define _GNU_SOURCE
#include <errno.h>
#include <fcntl.h>
#include <malloc.h>
#include <stdio.h>
#include <stdlib.h>
#include <string.h>
#include <sys/syscall.h>
#include <unistd.h>

/* The C library's own functions, by names that this library doesn't replace. */
extern void *__libc_malloc(size_t size);
extern void *__libc_calloc(size_t count, size_t size);
extern void *__libc_realloc(void *old, size_t size);
extern void *__libc_memalign(size_t align, size_t size);
extern void __libc_free(void *memory);

enum part { BEFORE, INSIDE, AFTER };

static int is_ready, is_marked;
static enum part part;
static long refused_number, requests, refusals, left, most, large;

/* A request for so many bytes counts as large, in the report alone. */
enum { LARGE = 4096 };

/* Reads the environment once. It takes no memory. */
static void prepare(void) {
    const char *number = getenv("REFUSE_NTH");
    refused_number = number ? atol(number) : 0;
    is_marked = getenv("REFUSE_MARKED") != NULL;
    part = is_marked ? BEFORE : INSIDE;
    is_ready = 1;
}

/* Counts a request for so many bytes, and returns whether it is the one to be refused. */
static int is_refused(size_t size) {
    if (!is_ready) prepare();
    if (part != INSIDE) return 0;
    if (size >= LARGE) large++;
    if (++requests != refused_number) return 0;
    refusals++;
    errno = ENOMEM;
    return 1;
}

/* Counts the bytes of new memory, and returns that memory. */
static void *taken(void *memory) {
    if (part == INSIDE) left += (long)malloc_usable_size(memory);
    if (left > most) most = left;
    return memory;
}

void free(void *memory) {
    if (part == INSIDE) left -= (long)malloc_usable_size(memory);
    __libc_free(memory);
}

void *malloc(size_t size) {
    return is_refused(size) ? NULL : taken(__libc_malloc(size));
}

void *calloc(size_t count, size_t size) {
    return is_refused(count * size) ? NULL : taken(__libc_calloc(count, size));
}

void *realloc(void *old, size_t size) {
    if (is_refused(size)) return NULL;
    long before = (long)malloc_usable_size(old);
    void *memory = __libc_realloc(old, size);
    if (part == INSIDE && (memory || !size)) left -= before;
    return taken(memory);
}

void *aligned_alloc(size_t align, size_t size) {
    return is_refused(size) ? NULL : taken(__libc_memalign(align, size));
}

void *memalign(size_t align, size_t size) {
    return is_refused(size) ? NULL : taken(__libc_memalign(align, size));
}

int posix_memalign(void **memory, size_t align, size_t size) {
    if (is_refused(size)) return ENOMEM;
    *memory = taken(__libc_memalign(align, size));
    return *memory ? 0 : ENOMEM;
}

/* Enters the next part if these bytes are the mark that begins or ends the counted part. */
static void see_mark(const void *bytes, size_t length) {
    if (part == BEFORE && length == 6 && !memcmp(bytes, "[call\n", 6)) part = INSIDE;
    else if (part == INSIDE && length == 6 && !memcmp(bytes, "[done\n", 6)) part = AFTER;
}

ssize_t write(int file, const void *bytes, size_t length) {
    if (!is_ready) prepare();
    if (is_marked && file == 2) see_mark(bytes, length);
    return syscall(SYS_write, file, bytes, length);
}

ssize_t __write(int file, const void *bytes, size_t length) {
    return write(file, bytes, length);
}

__attribute__((destructor)) static void report(void) {
    const char *path = getenv("REFUSE_REPORT");
    if (!path) return;
    int file = open(path, O_WRONLY | O_CREAT | O_TRUNC, 0600);
    if (file < 0) return;
    char line[160];
    int length = snprintf(line, sizeof line, "requests %ld refused %ld left %ld most %ld large %ld\n", requests, refusals, left, most, large);
    (void)!syscall(SYS_write, file, line, (size_t)length);
    close(file);
}
