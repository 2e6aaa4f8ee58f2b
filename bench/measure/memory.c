/* Preloaded, it refuses one request for memory: the one whose number REFUSED has, counted from 1. Where a run asks for
   fewer, nothing is refused, and the file that MISSED names is made at the end. */
#define _GNU_SOURCE
#include <dlfcn.h>
#include <errno.h>
#include <fcntl.h>
#include <stdlib.h>
#include <unistd.h>

static long asked, refused = -1;

static int is_refused(void) {
    if (refused < 0) {
        const char *number = getenv("REFUSED");
        refused = number ? atol(number) : 0;
    }
    return ++asked == refused;
}

#define REAL(name) ((__typeof__(&name))dlsym(RTLD_NEXT, #name))

void *malloc(size_t size) {
    static __typeof__(&malloc) real;
    if (!real) real = REAL(malloc);
    return is_refused() ? (errno = ENOMEM, NULL) : real(size);
}

void *realloc(void *old, size_t size) {
    static __typeof__(&realloc) real;
    if (!real) real = REAL(realloc);
    return is_refused() ? (errno = ENOMEM, NULL) : real(old, size);
}

void *aligned_alloc(size_t align, size_t size) {
    static __typeof__(&aligned_alloc) real;
    if (!real) real = REAL(aligned_alloc);
    return is_refused() ? (errno = ENOMEM, NULL) : real(align, size);
}

int posix_memalign(void **to, size_t align, size_t size) {
    static __typeof__(&posix_memalign) real;
    if (!real) real = REAL(posix_memalign);
    return is_refused() ? ENOMEM : real(to, align, size);
}

__attribute__((destructor)) static void note(void) {
    const char *name = getenv("MISSED");
    if (name && asked < refused) close(open(name, O_CREAT | O_WRONLY, 0600));
}
