/* Refuses one growth of memory: preloaded, it lets each call of malloc, calloc and realloc through but the one whose
   number, from 1, stands in REFUSE, and answers that one with NULL. At the end it writes to the file that REFUSE_MET
   names whether there was such a call. */
#define _GNU_SOURCE
#include <dlfcn.h>
#include <stddef.h>
#include <stdio.h>
#include <stdlib.h>
#include <sys/syscall.h>
#include <unistd.h>

static long wanted = -1, calls, met;

static int refused(void) {
    if (wanted < 0) {
        const char *number = getenv("REFUSE");
        wanted = number ? atol(number) : 0;
    }
    /* threads count together */
    int is_wanted = __atomic_add_fetch(&calls, 1, __ATOMIC_SEQ_CST) == wanted;
    if (is_wanted) met = 1;
    return is_wanted;
}

void *malloc(size_t size) {
    static void *(*real)(size_t);
    if (!real) real = dlsym(RTLD_NEXT, "malloc");
    return refused() ? NULL : real(size);
}

void *realloc(void *old, size_t size) {
    static void *(*real)(void *, size_t);
    if (!real) real = dlsym(RTLD_NEXT, "realloc");
    return refused() ? NULL : real(old, size);
}

__attribute__((destructor)) static void tell(void) {
    const char *name = getenv("REFUSE_MET");
    long seen = met;
    /* the file's own allocation succeeds */
    wanted = 0;
    FILE *file = name ? fopen(name, "w") : NULL;
    if (file) {
        fputs(seen ? "met\n" : "none\n", file);
        fclose(file);
    }
}

/* a program with threads ends without destructors */
void _exit(int status) {
    tell();
    syscall(SYS_exit_group, status);
    __builtin_unreachable();
}
