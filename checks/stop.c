/* A stop of a program at one of its calls, and what its disk may keep of a desk's file and of its log, for checks: it is loaded before
   the program (LD_PRELOAD). The calls that count, from 1, are those that write, cut or sync a file, and each write to standard output.
   What the environment names:
   DESK     the database file; the file of that name and `-wal` is its log
   STOP     the number of the call at which the program stops; 0 for none
   FAIL     what fails from there on: `all` for the calls on any file, `one` for those on the file of that call alone; a write to standard
            output fails only if it is that call. Without it the process is killed before the call.
   KEPT     a folder, which gets `db` and `log`: what each of the two holds at its last sync, or before this process changes it
   CALLS    a file that gets a line for each call: its name, and `db`, `log`, `answer` or `other`
   SEED     a byte that stands for each random one, so that a run can be repeated */
#define _GNU_SOURCE
#include <dlfcn.h>
#include <errno.h>
#include <fcntl.h>
#include <limits.h>
#include <signal.h>
#include <stdarg.h>
#include <stdint.h>
#include <stdio.h>
#include <stdlib.h>
#include <string.h>
#include <sys/stat.h>
#include <sys/syscall.h>
#include <sys/uio.h>
#include <unistd.h>

enum file { DB, LOG, ANSWER, OTHER };

/* A place behind each file's end. */
#define UNCHANGED ((off_t)INT64_MAX)

static const char *const names[] = { "db", "log", "answer", "other" };
static const char *desk, *kept;
static long stop, made;
static int calls = -1, fails_all, fails_one, is_kept[2];
/* Where the database file and its log differ from what is kept of them: from these places on. */
static off_t changed[2];
/* Whether the program was stopped and lives on, and the file of that call. */
static int has_stopped;
static enum file stopped_at;

#define NEXT(name) ((__typeof__(&name))dlsym(RTLD_NEXT, #name))

static void fail(const char *what) {
    syscall(SYS_write, 2, what, strlen(what));
    _exit(99);
}

__attribute__((constructor)) static void begin(void) {
    const char *number = getenv("STOP"), *how = getenv("FAIL"), *path = getenv("CALLS");
    desk = getenv("DESK");
    kept = getenv("KEPT");
    stop = number ? atol(number) : 0;
    fails_all = how && !strcmp(how, "all");
    fails_one = how && !strcmp(how, "one");
    if (path && (calls = open(path, O_WRONLY | O_CREAT | O_APPEND | O_CLOEXEC, 0600)) < 0) fail("stop.c: no file for the calls\n");
}

static enum file file_of(int fd) {
    char link[64], path[PATH_MAX];
    if (fd == 1) return ANSWER;
    snprintf(link, sizeof link, "/proc/self/fd/%d", fd);
    ssize_t length = readlink(link, path, sizeof path - 1);
    if (length < 0 || !desk) return OTHER;
    path[length] = 0;
    size_t most = strlen(desk);
    if (strncmp(path, desk, most)) return OTHER;
    return !path[most] ? DB : !strcmp(path + most, "-wal") ? LOG : OTHER;
}

/* The file has its contents of now in KEPT too. It is read by the program's own descriptor, so that no lock is let go. */
static void keep(int fd, enum file file) {
    static char buffer[1 << 16];
    char path[PATH_MAX];
    if (!kept) return;
    snprintf(path, sizeof path, "%s/%s", kept, names[file]);
    int copy = open(path, O_WRONLY | O_CREAT | O_CLOEXEC, 0600);
    off_t at = changed[file];
    ssize_t length;
    if (copy < 0) fail("stop.c: no file for what is kept\n");
    while ((length = syscall(SYS_pread64, fd, buffer, sizeof buffer, at)) > 0) {
        if (syscall(SYS_pwrite64, copy, buffer, length, at) != length) fail("stop.c: what is kept finds no room\n");
        at += length;
    }
    if (length < 0) fail("stop.c: a file can't be read\n");
    struct stat now;
    if (fstat(fd, &now) || syscall(SYS_ftruncate, copy, now.st_size)) fail("stop.c: what is kept can't be cut\n");
    close(copy);
    changed[file] = now.st_size;
}

/* Whether a call on this file, made after the stop, fails. */
static int is_lost(enum file file) { return has_stopped && file != ANSWER && (fails_all || file == stopped_at); }

/* Whether this call, which changes the file from this place on, has to fail. It is counted, and the process killed if it is to stop here. */
static int stops(const char *name, int fd, enum file file, off_t from) {
    char line[64];
    int length = snprintf(line, sizeof line, "%s %s\n", name, names[file]);
    if (calls >= 0) syscall(SYS_write, calls, line, length);
    if (file <= LOG && !is_kept[file]) {
        is_kept[file] = 1;
        keep(fd, file);
    }
    if (file <= LOG && from < changed[file]) changed[file] = from;
    int is_here = ++made == stop;
    if (is_here && !fails_all && !fails_one) kill(getpid(), SIGKILL);
    if (is_here) {
        has_stopped = 1;
        stopped_at = file;
    }
    if (!is_here && !is_lost(file)) return 0;
    errno = EIO;
    return 1;
}

ssize_t pwrite(int fd, const void *from, size_t size, off_t at) {
    return stops("pwrite", fd, file_of(fd), at) ? -1 : NEXT(pwrite)(fd, from, size, at);
}

ssize_t pwrite64(int fd, const void *from, size_t size, off64_t at) {
    return stops("pwrite", fd, file_of(fd), at) ? -1 : NEXT(pwrite64)(fd, from, size, at);
}

ssize_t pwritev(int fd, const struct iovec *from, int count, off_t at) {
    return stops("pwritev", fd, file_of(fd), at) ? -1 : NEXT(pwritev)(fd, from, count, at);
}

ssize_t write(int fd, const void *from, size_t size) {
    enum file file = file_of(fd);
    return file != OTHER && stops("write", fd, file, 0) ? -1 : NEXT(write)(fd, from, size);
}

ssize_t writev(int fd, const struct iovec *from, int count) {
    enum file file = file_of(fd);
    return file != OTHER && stops("writev", fd, file, 0) ? -1 : NEXT(writev)(fd, from, count);
}

int ftruncate(int fd, off_t length) { return stops("ftruncate", fd, file_of(fd), length) ? -1 : NEXT(ftruncate)(fd, length); }

int ftruncate64(int fd, off64_t length) { return stops("ftruncate", fd, file_of(fd), length) ? -1 : NEXT(ftruncate64)(fd, length); }

/* A sync: the file has its contents of now in KEPT. The disk itself isn't waited for, since it doesn't stop. */
static int sync_of(const char *name, int fd) {
    enum file file = file_of(fd);
    if (stops(name, fd, file, UNCHANGED)) return -1;
    if (file <= LOG) keep(fd, file);
    return 0;
}

int fsync(int fd) { return sync_of("fsync", fd); }

int fdatasync(int fd) { return sync_of("fdatasync", fd); }

/* Calls that change a file, at which no stop is: the desk makes none on its files, and a run that does has no result. */
static void unseen(const char *what, int fd) {
    if (file_of(fd) <= LOG) fail(what);
}

int open(const char *path, int flags, ...) {
    va_list rest;
    va_start(rest, flags);
    mode_t mode = flags & (O_CREAT | O_TMPFILE) ? va_arg(rest, mode_t) : 0;
    va_end(rest);
    int fd = NEXT(open)(path, flags, mode);
    if (fd >= 0 && flags & O_TRUNC) unseen("stop.c: open cuts a file\n", fd);
    return fd;
}

int fallocate(int fd, int mode, off_t at, off_t length) {
    unseen("stop.c: fallocate\n", fd);
    return NEXT(fallocate)(fd, mode, at, length);
}

int posix_fallocate(int fd, off_t at, off_t length) {
    unseen("stop.c: posix_fallocate\n", fd);
    return NEXT(posix_fallocate)(fd, at, length);
}

ssize_t pwritev2(int fd, const struct iovec *from, int count, off_t at, int flags) {
    unseen("stop.c: pwritev2\n", fd);
    return NEXT(pwritev2)(fd, from, count, at, flags);
}

ssize_t copy_file_range(int from, off64_t *at, int fd, off64_t *to, size_t size, unsigned flags) {
    unseen("stop.c: copy_file_range\n", fd);
    return NEXT(copy_file_range)(from, at, fd, to, size, flags);
}

/* A read isn't counted. It fails after the stop, if its file's calls do. */
static int unread(int fd) {
    if (!has_stopped || !is_lost(file_of(fd))) return 0;
    errno = EIO;
    return 1;
}

ssize_t pread(int fd, void *to, size_t size, off_t at) { return unread(fd) ? -1 : NEXT(pread)(fd, to, size, at); }

ssize_t pread64(int fd, void *to, size_t size, off64_t at) { return unread(fd) ? -1 : NEXT(pread64)(fd, to, size, at); }

int getentropy(void *to, size_t size) {
    const char *seed = getenv("SEED");
    if (!seed) return NEXT(getentropy)(to, size);
    memset(to, atoi(seed), size);
    return 0;
}
