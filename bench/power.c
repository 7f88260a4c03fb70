// Notes each call that changes a folder, for bench/crash --power, which reads from it what a power cut may leave
// (power.py). Loaded before the C library, by all processes that change the folder, at the same time too.
//
//   POWER_FOLDER  the folder, by its real path; what is in it is watched, at all depths
//   POWER_LOG     the log, a file that is there, outside of the folder. Who has its lock (flock) makes a call and notes
//                 it: so a process that is killed by one who has the lock has noted all that it changed
//
// A record is a line of six fields with tabs between them, and then COUNT bytes. FILE is an inode, a PATH is that below
// the folder, and a field that means nothing is 0 or -. Calls that failed are not noted.
//
//   create   FILE  0       0      PATH  -       a file was made
//   mkdir    FILE  0       0      PATH  -       a folder was made
//   write    FILE  AT      COUNT  -     -       the bytes were written at this place
//   resize   FILE  SIZE    0      -     -       the file has this length now
//   rename   0     0       0      PATH  PATH    what had the first name has the second
//   remove   0     0       0      PATH  -       a file or an empty folder was removed
//   syncing  FILE  THREAD  0      -     -       a sync of it begins, whose end is synced; the lock is free meanwhile
#define _GNU_SOURCE
#include <fcntl.h>
#include <limits.h>
#include <stdarg.h>
#include <stdio.h>
#include <stdlib.h>
#include <string.h>
#include <sys/file.h>
#include <sys/stat.h>
#include <sys/syscall.h>
#include <unistd.h>

struct call {
    const char *what, *path, *other;
    int file;                           // its descriptor; -1 for none
    off_t at;
    const void *bytes;
    size_t count;
};

static _Thread_local int record_file;   // the log, opened for this call alone: flock is for what was opened at once

static void begin(void) {
    record_file = syscall(SYS_openat, AT_FDCWD, getenv("POWER_LOG"), O_WRONLY | O_APPEND | O_CLOEXEC);
    if (flock(record_file, LOCK_EX))
        abort();
}

static void end(void) { close(record_file); }

static void record(struct call it) {
    struct stat file = {0};
    if (it.file >= 0 && fstat(it.file, &file))
        abort();
    int length = dprintf(record_file, "%s\t%lu\t%ld\t%zu\t%s\t%s\n", it.what, file.st_ino, it.at, it.count,
                         it.path ? it.path : "-", it.other ? it.other : "-");
    if (length < 0 || (it.count && syscall(SYS_write, record_file, it.bytes, it.count) != (ssize_t)it.count))
        abort();
}

// Where a real path is below the folder, "" for the folder itself; NULL where it is elsewhere.
static const char *below(const char *path) {
    const char *folder = getenv("POWER_FOLDER");
    size_t length = strlen(folder);
    if (strncmp(path, folder, length) || (path[length] && path[length] != '/'))
        return NULL;
    return path[length] ? path + length + 1 : "";
}

// The same for a path, of which nothing may be there yet; `real` has room for it.
static const char *find(int folder, const char *path, char *real) {
    char whole[PATH_MAX], in[64] = "", *name;
    if (folder != AT_FDCWD && path[0] != '/')
        snprintf(in, sizeof in, "/proc/self/fd/%d/", folder);
    snprintf(whole, sizeof whole, "%s%s", in, path);
    name = strrchr(whole, '/');
    if (!name || name == whole)
        return NULL;
    *name++ = 0;
    if (!realpath(whole, real) || strlen(real) + strlen(name) + 2 > PATH_MAX)
        return NULL;
    return below(strcat(strcat(real, "/"), name));
}

static int is_watched(int file) {
    char link[64], path[PATH_MAX] = "";
    snprintf(link, sizeof link, "/proc/self/fd/%d", file);
    return readlink(link, path, sizeof path - 1) > 0 && below(path);
}

int openat(int folder, const char *path, int flags, ...) {
    char real[PATH_MAX];
    struct stat before;
    va_list more;
    va_start(more, flags);
    mode_t mode = flags & O_CREAT ? va_arg(more, mode_t) : 0;
    va_end(more);
    const char *place = flags & (O_CREAT | O_TRUNC) ? find(folder, path, real) : NULL;
    if (!place)
        return syscall(SYS_openat, folder, path, flags, mode);
    begin();
    int is_new = fstatat(folder, path, &before, 0), file = syscall(SYS_openat, folder, path, flags, mode);
    if (file >= 0 && (is_new || flags & O_TRUNC))
        record((struct call){is_new ? "create" : "resize", is_new ? place : NULL, .file = file});
    end();
    return file;
}

int open(const char *path, int flags, ...) {
    va_list more;
    va_start(more, flags);
    mode_t mode = flags & O_CREAT ? va_arg(more, mode_t) : 0;
    va_end(more);
    return openat(AT_FDCWD, path, flags, mode);
}

static ssize_t put(int file, const void *bytes, size_t count, off_t at, int is_placed) {
    int is_seen = is_watched(file);
    if (is_seen)
        begin();
    if (is_seen && !is_placed)
        at = lseek(file, 0, fcntl(file, F_GETFL) & O_APPEND ? SEEK_END : SEEK_CUR);
    ssize_t done = is_placed ? syscall(SYS_pwrite64, file, bytes, count, at) : syscall(SYS_write, file, bytes, count);
    if (is_seen && done > 0)
        record((struct call){"write", .file = file, .at = at, .bytes = bytes, .count = done});
    if (is_seen)
        end();
    return done;
}

ssize_t write(int file, const void *bytes, size_t count) { return put(file, bytes, count, 0, 0); }
ssize_t pwrite(int file, const void *bytes, size_t count, off_t at) { return put(file, bytes, count, at, 1); }

int ftruncate(int file, off_t size) {
    begin();
    int failed = syscall(SYS_ftruncate, file, size);
    if (!failed && is_watched(file))
        record((struct call){"resize", .file = file, .at = size});
    end();
    return failed;
}

static void note(const char *what, int file) {
    begin();
    record((struct call){what, .file = file, .at = syscall(SYS_gettid)});
    end();
}

static int sync_by(long call, int file) {
    int is_seen = is_watched(file);
    if (is_seen)
        note("syncing", file);
    int failed = syscall(call, file);
    if (!failed && is_seen)
        note("synced", file);
    return failed;
}

int fsync(int file) { return sync_by(SYS_fsync, file); }
int fdatasync(int file) { return sync_by(SYS_fdatasync, file); }

int mkdir(const char *path, mode_t mode) {
    char real[PATH_MAX];
    const char *place = find(AT_FDCWD, path, real);
    begin();
    int failed = syscall(SYS_mkdirat, AT_FDCWD, path, mode);
    if (!failed && place) {
        int made = syscall(SYS_openat, AT_FDCWD, path, O_PATH | O_CLOEXEC);
        record((struct call){"mkdir", place, .file = made});
        close(made);
    }
    end();
    return failed;
}

int unlinkat(int folder, const char *path, int flags) {
    char real[PATH_MAX];
    const char *place = find(folder, path, real);
    begin();
    int failed = syscall(SYS_unlinkat, folder, path, flags);
    if (!failed && place)
        record((struct call){"remove", place, .file = -1});
    end();
    return failed;
}

int unlink(const char *path) { return unlinkat(AT_FDCWD, path, 0); }
int rmdir(const char *path) { return unlinkat(AT_FDCWD, path, AT_REMOVEDIR); }

int rename(const char *from, const char *to) {
    char real_from[PATH_MAX], real_to[PATH_MAX];
    const char *old = find(AT_FDCWD, from, real_from), *new = find(AT_FDCWD, to, real_to);
    begin();
    int failed = syscall(SYS_renameat2, AT_FDCWD, from, AT_FDCWD, to, 0);
    if (!failed && (old || new))
        record((struct call){"rename", old, new, .file = -1});
    end();
    return failed;
}
