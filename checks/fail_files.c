/* Fails one call on the files of a directory: preloaded, it lets each write, sync, read or change of length through but the one
   whose number, from 1, stands in FAIL_AT. FAIL_KIND names the calls that are counted: write, sync, read or length. FAIL_ERRNO is
   the error. Only files below FAIL_DIR count. A write that fails has written the first half of its bytes. At the end it writes to
   the file that FAIL_MET names whether there was such a call. */
#define _GNU_SOURCE
#include <dlfcn.h>
#include <errno.h>
#include <fcntl.h>
#include <stdio.h>
#include <stdlib.h>
#include <string.h>
#include <sys/syscall.h>
#include <sys/types.h>
#include <sys/uio.h>
#include <unistd.h>

static long calls, met;

static long number(const char *name) {
    const char *text = getenv(name);
    return text ? atol(text) : 0;
}

static int is_below(int fd) {
    char link[64], path[4096];
    const char *directory = getenv("FAIL_DIR");
    snprintf(link, sizeof link, "/proc/self/fd/%d", fd);
    ssize_t length = readlink(link, path, sizeof path - 1);
    if (!directory || length < 0) return 0;
    path[length] = 0;
    return strncmp(path, directory, strlen(directory)) == 0;
}

/* whether this call fails */
static int fails(const char *kind, int fd) {
    const char *wanted = getenv("FAIL_KIND");
    if (!wanted || strcmp(wanted, kind) != 0 || !is_below(fd)) return 0;
    if (__atomic_add_fetch(&calls, 1, __ATOMIC_SEQ_CST) != number("FAIL_AT")) return 0;
    met = 1;
    return 1;
}

static long refused(void) {
    errno = (int)number("FAIL_ERRNO");
    return -1;
}

ssize_t write(int fd, const void *bytes, size_t count) {
    if (!fails("write", fd)) return syscall(SYS_write, fd, bytes, count);
    syscall(SYS_write, fd, bytes, count / 2);
    return refused();
}

ssize_t pwrite64(int fd, const void *bytes, size_t count, off64_t at) {
    if (!fails("write", fd)) return syscall(SYS_pwrite64, fd, bytes, count, at);
    syscall(SYS_pwrite64, fd, bytes, count / 2, at);
    return refused();
}

ssize_t pwrite(int fd, const void *bytes, size_t count, off_t at) { return pwrite64(fd, bytes, count, at); }

ssize_t writev(int fd, const struct iovec *parts, int count) {
    return fails("write", fd) ? refused() : syscall(SYS_writev, fd, parts, count);
}

ssize_t read(int fd, void *bytes, size_t count) { return fails("read", fd) ? refused() : syscall(SYS_read, fd, bytes, count); }

ssize_t pread64(int fd, void *bytes, size_t count, off64_t at) {
    return fails("read", fd) ? refused() : syscall(SYS_pread64, fd, bytes, count, at);
}

ssize_t pread(int fd, void *bytes, size_t count, off_t at) { return pread64(fd, bytes, count, at); }

int fsync(int fd) { return fails("sync", fd) ? (int)refused() : (int)syscall(SYS_fsync, fd); }

int fdatasync(int fd) { return fails("sync", fd) ? (int)refused() : (int)syscall(SYS_fdatasync, fd); }

int ftruncate64(int fd, off64_t length) { return fails("length", fd) ? (int)refused() : (int)syscall(SYS_ftruncate, fd, length); }

int ftruncate(int fd, off_t length) { return ftruncate64(fd, length); }

__attribute__((destructor)) static void tell(void) {
    const char *name = getenv("FAIL_MET");
    int fd = name ? (int)syscall(SYS_openat, AT_FDCWD, name, O_WRONLY | O_CREAT | O_TRUNC, 0644) : -1;
    if (fd >= 0) {
        syscall(SYS_write, fd, met ? "met\n" : "none\n", met ? 4 : 5);
        syscall(SYS_close, fd);
    }
}

/* a program with threads ends without destructors */
void _exit(int status) {
    tell();
    syscall(SYS_exit_group, status);
    __builtin_unreachable();
}
