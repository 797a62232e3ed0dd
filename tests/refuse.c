/* A library to be loaded before a program: refuses the growth whose number REFUSED_GROWTH says, and
   writes how many there were into the file that GROWTHS_FILE names. */
#define _GNU_SOURCE
#include <dlfcn.h>
#include <errno.h>
#include <stdio.h>
#include <stdlib.h>
#include <sys/syscall.h>
#include <unistd.h>

static long calls;

/* Several threads may call it. */
static int refused(void) {
    const char *at = getenv("REFUSED_GROWTH");
    long call = __atomic_add_fetch(&calls, 1, __ATOMIC_SEQ_CST);
    if (at && call == atol(at)) {
        errno = ENOMEM;
        return 1;
    }
    return 0;
}

static void tell(void) {
    const char *path = getenv("GROWTHS_FILE");
    FILE *file = path ? fopen(path, "w") : NULL;
    if (file) {
        fprintf(file, "%ld", calls);
        fclose(file);
    }
}

__attribute__((destructor)) static void at_exit(void) {
    tell();
}

/* The program may end by this, which runs no destructor. */
void _exit(int status) {
    tell();
    syscall(SYS_exit_group, status);
    __builtin_unreachable();
}

void *malloc(size_t size) {
    static void *(*real)(size_t);
    if (!real) real = dlsym(RTLD_NEXT, "malloc");
    return refused() ? NULL : real(size);
}

void *realloc(void *block, size_t size) {
    static void *(*real)(void *, size_t);
    if (!real) real = dlsym(RTLD_NEXT, "realloc");
    return refused() ? NULL : real(block, size);
}
