// Makes one call of a program fail: the FAIL_AT-th of the kind FAIL, in the program whose name ends in FAIL_IN. Loaded before
// the C library, by bench/growths and bench/failures.
//
//   growth   malloc, calloc, realloc, aligned_alloc, posix_memalign: there is no memory
//   read     read: an input or output error
//   write    write, pwrite, ftruncate, fsync, fdatasync: no space is left
//   short    a read, write or pwrite of several bytes moves one
//   open     open, openat, flock, mkdir, rename: an input or output error
//
// The file FAIL_TOLD gets a byte where a call failed: o where it was a write to standard output, else !. Where FAIL_AT is 0
// no call fails, and the file gets their number at the program's end.
#define _GNU_SOURCE
#include <dlfcn.h>
#include <errno.h>
#include <fcntl.h>
#include <stdarg.h>
#include <stdatomic.h>
#include <stddef.h>
#include <stdio.h>
#include <stdlib.h>
#include <string.h>
#include <sys/stat.h>
#include <sys/syscall.h>
#include <sys/types.h>
#include <unistd.h>

extern char *program_invocation_short_name;
extern void *__libc_malloc(size_t);
extern void *__libc_calloc(size_t, size_t);
extern void *__libc_realloc(void *, size_t);
extern void *__libc_memalign(size_t, size_t);

enum kind { UNKNOWN, NONE, GROWTH, READ, WRITE, SHORT, OPEN };

static atomic_long calls;
static atomic_int kind;
static long wanted;

static enum kind find_kind(void) {
    static const char *const names[] = {"growth", "read", "write", "short", "open"};
    const char *fail = getenv("FAIL"), *at = getenv("FAIL_AT"), *in = getenv("FAIL_IN");
    const char *name = program_invocation_short_name;
    if (!fail || !at || !in || !name || strlen(name) < strlen(in) || strcmp(name + strlen(name) - strlen(in), in))
        return NONE;
    wanted = atol(at);
    for (int it = 0; it < 5; it++)
        if (!strcmp(fail, names[it]))
            return GROWTH + it;
    return NONE;
}

static void tell(const char *text) {
    int told = syscall(SYS_openat, AT_FDCWD, getenv("FAIL_TOLD"), O_WRONLY | O_APPEND);
    if (told >= 0) {
        syscall(SYS_write, told, text, strlen(text));
        close(told);
    }
}

// Whether this call, of this kind, is the one that fails; then the text is told.
static int fails_as(enum kind of, const char *text) {
    if (atomic_load(&kind) == UNKNOWN)
        atomic_store(&kind, find_kind());
    if (atomic_load(&kind) != of || atomic_fetch_add(&calls, 1) + 1 != wanted)
        return 0;
    tell(text);
    return 1;
}

static int fails(enum kind of) { return fails_as(of, "!"); }

__attribute__((destructor)) static void tell_calls(void) {
    static atomic_int is_told;
    char text[24];
    if (atomic_load(&kind) > NONE && wanted == 0 && !atomic_exchange(&is_told, 1)) {
        snprintf(text, sizeof text, "%ld", atomic_load(&calls));
        tell(text);
    }
}

// No destructor runs behind it.
void _exit(int status) {
    tell_calls();
    syscall(SYS_exit_group, status);
    __builtin_unreachable();
}

static int lacks_memory(void) {
    if (!fails(GROWTH))
        return 0;
    errno = ENOMEM;
    return 1;
}

static int fails_with(enum kind of, int error) {
    if (!fails(of))
        return 0;
    errno = error;
    return 1;
}

void *malloc(size_t size) { return lacks_memory() ? NULL : __libc_malloc(size); }

void *calloc(size_t count, size_t size) { return lacks_memory() ? NULL : __libc_calloc(count, size); }

void *realloc(void *old, size_t size) { return lacks_memory() ? NULL : __libc_realloc(old, size); }

void *aligned_alloc(size_t align, size_t size) { return lacks_memory() ? NULL : __libc_memalign(align, size); }

int posix_memalign(void **into, size_t align, size_t size) {
    void *made = lacks_memory() ? NULL : __libc_memalign(align, size);
    if (!made)
        return ENOMEM;
    *into = made;
    return 0;
}

ssize_t read(int file, void *into, size_t count) {
    if (fails_with(READ, EIO))
        return -1;
    return syscall(SYS_read, file, into, count > 1 && fails(SHORT) ? 1 : count);
}

ssize_t write(int file, const void *from, size_t count) {
    if (fails_as(WRITE, file == STDOUT_FILENO ? "o" : "!")) {
        errno = ENOSPC;
        return -1;
    }
    return syscall(SYS_write, file, from, count > 1 && fails(SHORT) ? 1 : count);
}

ssize_t pwrite(int file, const void *from, size_t count, off_t at) {
    if (fails_with(WRITE, ENOSPC))
        return -1;
    return syscall(SYS_pwrite64, file, from, count > 1 && fails(SHORT) ? 1 : count, at);
}

int ftruncate(int file, off_t size) { return fails_with(WRITE, ENOSPC) ? -1 : (int)syscall(SYS_ftruncate, file, size); }

int fsync(int file) { return fails_with(WRITE, ENOSPC) ? -1 : (int)syscall(SYS_fsync, file); }

int fdatasync(int file) { return fails_with(WRITE, ENOSPC) ? -1 : (int)syscall(SYS_fdatasync, file); }

static int open_at(int folder, const char *path, int flags, va_list more) {
    mode_t mode = flags & O_CREAT ? va_arg(more, mode_t) : 0;
    return fails_with(OPEN, EIO) ? -1 : (int)syscall(SYS_openat, folder, path, flags, mode);
}

int open(const char *path, int flags, ...) {
    va_list more;
    va_start(more, flags);
    int file = open_at(AT_FDCWD, path, flags, more);
    va_end(more);
    return file;
}

int openat(int folder, const char *path, int flags, ...) {
    va_list more;
    va_start(more, flags);
    int file = open_at(folder, path, flags, more);
    va_end(more);
    return file;
}

int flock(int file, int how) { return fails_with(OPEN, EIO) ? -1 : (int)syscall(SYS_flock, file, how); }

int mkdir(const char *path, mode_t mode) {
    return fails_with(OPEN, EIO) ? -1 : (int)syscall(SYS_mkdirat, AT_FDCWD, path, mode);
}

int rename(const char *from, const char *to) {
    return fails_with(OPEN, EIO) ? -1 : (int)syscall(SYS_renameat2, AT_FDCWD, from, AT_FDCWD, to, 0);
}
