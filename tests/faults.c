/* Loaded before the program (LD_PRELOAD), refuses one of its calls to the system: the one that FAIL_ALLOC, FAIL_READ or
   FAIL_WRITE gives, counted from 1, each by itself. COUNTS names a file that gets how many calls of each kind were made. */
#define _GNU_SOURCE
#include <dlfcn.h>
#include <errno.h>
#include <stdio.h>
#include <stdlib.h>
#include <string.h>
#include <unistd.h>

enum kind { ALLOC, READ, WRITE };
static const char *const refusal[] = {"FAIL_ALLOC", "FAIL_READ", "FAIL_WRITE"};
static long made[3];

/* What starts the program may load this too, and is let alone. */
static int is_program(void) { return strcmp(program_invocation_short_name, "thiele_cli") == 0; }

static int is_refused(enum kind kind) {
    if (!is_program()) return 0;
    const char *number = getenv(refusal[kind]);
    return ++made[kind], number != NULL && atol(number) == made[kind];
}

#define REAL(name, type) \
    static __typeof__(type) real; \
    if (!real) real = (__typeof__(type))dlsym(RTLD_NEXT, name)

void *malloc(size_t size) {
    REAL("malloc", void *(*)(size_t));
    return is_refused(ALLOC) ? NULL : real(size);
}

void *realloc(void *old, size_t size) {
    REAL("realloc", void *(*)(void *, size_t));
    return is_refused(ALLOC) ? NULL : real(old, size);
}

void *aligned_alloc(size_t unit, size_t size) {
    REAL("aligned_alloc", void *(*)(size_t, size_t));
    return is_refused(ALLOC) ? NULL : real(unit, size);
}

int posix_memalign(void **result, size_t unit, size_t size) {
    REAL("posix_memalign", int (*)(void **, size_t, size_t));
    return is_refused(ALLOC) ? ENOMEM : real(result, unit, size);
}

ssize_t read(int file, void *bytes, size_t count) {
    REAL("read", ssize_t (*)(int, void *, size_t));
    return is_refused(READ) ? (errno = EIO, -1) : real(file, bytes, count);
}

ssize_t write(int file, const void *bytes, size_t count) {
    REAL("write", ssize_t (*)(int, const void *, size_t));
    return is_refused(WRITE) ? (errno = EIO, -1) : real(file, bytes, count);
}

__attribute__((destructor)) static void tell(void) {
    const char *name = getenv("COUNTS");
    /* as the program left them: what follows allocates too */
    long counts[] = {made[ALLOC], made[READ], made[WRITE]};
    FILE *out = name != NULL && is_program() ? fopen(name, "w") : NULL;
    if (out == NULL) return;
    fprintf(out, "%ld %ld %ld\n", counts[ALLOC], counts[READ], counts[WRITE]);
    fclose(out);
}
