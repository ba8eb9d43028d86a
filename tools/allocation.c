/* Stands before the C library's allocation in a program that it is preloaded into (LD_PRELOAD): it counts the program's requests
 * for memory, and refuses some of them.
 *
 * The file that REFUSING names holds these numbers of 64 bits. It is shared with whoever looks at it, so that they are there however
 * the program ends:
 *
 *   first     the request that is to be refused, from 1; 0 for none
 *   count     how many are to be refused, that one and those that follow it
 *   requests  how many were made so far
 *   refused   how many were refused
 */
#define _GNU_SOURCE
#include <dlfcn.h>
#include <errno.h>
#include <fcntl.h>
#include <stddef.h>
#include <stdint.h>
#include <stdlib.h>
#include <sys/mman.h>
#include <unistd.h>

struct numbers {
    uint64_t first, count, requests, refused;
};

static struct numbers none, *numbers = &none;
static int is_open;

__attribute__((constructor)) static void begin(void) {
    const char *path = getenv("REFUSING");
    int file = path ? open(path, O_RDWR | O_CLOEXEC) : -1;
    if (file < 0)
        return;
    void *shared = mmap(NULL, sizeof none, PROT_READ | PROT_WRITE, MAP_SHARED, file, 0);
    close(file);
    if (shared == MAP_FAILED)
        _exit(126);
    numbers = shared;
    is_open = 1;
}

__attribute__((destructor)) static void end(void) {
    is_open = 0;
}

/* Counts a request, and says whether it is refused. */
static int is_refused(void) {
    if (!is_open)
        return 0;
    numbers->requests += 1;
    if (numbers->first == 0 || numbers->requests < numbers->first || numbers->requests - numbers->first >= numbers->count)
        return 0;
    numbers->refused += 1;
    errno = ENOMEM;
    return 1;
}

static void *next_named(const char *name) {
    void *found = dlsym(RTLD_NEXT, name);
    if (!found)
        _exit(126);
    return found;
}

#define NEXT(name) ((__typeof__(&name))next_named(#name))

void *malloc(size_t size) {
    return is_refused() ? NULL : NEXT(malloc)(size);
}

void *calloc(size_t count, size_t size) {
    return is_refused() ? NULL : NEXT(calloc)(count, size);
}

void *realloc(void *block, size_t size) {
    return is_refused() ? NULL : NEXT(realloc)(block, size);
}

void *reallocarray(void *block, size_t count, size_t size) {
    return is_refused() ? NULL : NEXT(reallocarray)(block, count, size);
}

void *aligned_alloc(size_t alignment, size_t size) {
    return is_refused() ? NULL : NEXT(aligned_alloc)(alignment, size);
}

int posix_memalign(void **block, size_t alignment, size_t size) {
    return is_refused() ? ENOMEM : NEXT(posix_memalign)(block, alignment, size);
}
