/* Reads and writes of which one fails, for checks: it is loaded before a program (LD_PRELOAD). They are those of standard input and
   standard output; or, where SOCKET is set, those of the first connection that the program accepts. What the environment names:
   PIECE    how many bytes a call takes at most
   READ     the number, from 1, of the read that fails
   WRITE    the number, from 1, of the write that fails
   ACCEPT   the number, from 1, of the accept that fails
   SOCKET   (whatever its value) */
#define _GNU_SOURCE
#include <dlfcn.h>
#include <errno.h>
#include <stdlib.h>
#include <sys/socket.h>
#include <sys/types.h>

static int input = 0, output = 1, accepts;
static long piece, failing_read, failing_write, failing_accept, reads, writes, accepted;

static long number(const char *name) {
    const char *value = getenv(name);
    return value ? atol(value) : 0;
}

__attribute__((constructor)) static void begin(void) {
    piece = number("PIECE");
    failing_read = number("READ");
    failing_write = number("WRITE");
    failing_accept = number("ACCEPT");
    accepts = getenv("SOCKET") != NULL;
    if (accepts) input = output = -1;
}

/* How many bytes a call may take, of those that it asks for; 0 where it has to fail. */
static size_t taken(long *made, long failing, size_t size) {
    if (++*made == failing) {
        errno = EIO;
        return 0;
    }
    return piece > 0 && size > (size_t)piece ? (size_t)piece : size;
}

ssize_t read(int fd, void *to, size_t size) {
    static ssize_t (*next)(int, void *, size_t);
    if (!next) next = (ssize_t (*)(int, void *, size_t))dlsym(RTLD_NEXT, "read");
    if (fd == input && size > 0 && !(size = taken(&reads, failing_read, size))) return -1;
    return next(fd, to, size);
}

ssize_t write(int fd, const void *from, size_t size) {
    static ssize_t (*next)(int, const void *, size_t);
    if (!next) next = (ssize_t (*)(int, const void *, size_t))dlsym(RTLD_NEXT, "write");
    if (fd == output && size > 0 && !(size = taken(&writes, failing_write, size))) return -1;
    return next(fd, from, size);
}

ssize_t recv(int fd, void *to, size_t size, int flags) {
    static ssize_t (*next)(int, void *, size_t, int);
    if (!next) next = (ssize_t (*)(int, void *, size_t, int))dlsym(RTLD_NEXT, "recv");
    if (fd == input && size > 0 && !(size = taken(&reads, failing_read, size))) return -1;
    return next(fd, to, size, flags);
}

ssize_t send(int fd, const void *from, size_t size, int flags) {
    static ssize_t (*next)(int, const void *, size_t, int);
    if (!next) next = (ssize_t (*)(int, const void *, size_t, int))dlsym(RTLD_NEXT, "send");
    if (fd == output && size > 0 && !(size = taken(&writes, failing_write, size))) return -1;
    return next(fd, from, size, flags);
}

/* Whether this accept has to fail: the system has no descriptor left. */
static int fails(void) {
    if (++accepted != failing_accept) return 0;
    errno = EMFILE;
    return 1;
}

/* The first connection is the one whose reads and writes are counted; the next one ends that. */
static int counted(int found) {
    if (found < 0) return found;
    input = output = accepts ? found : -1;
    accepts = 0;
    return found;
}

int accept(int fd, struct sockaddr *address, socklen_t *size) {
    static int (*next)(int, struct sockaddr *, socklen_t *);
    if (!next) next = (int (*)(int, struct sockaddr *, socklen_t *))dlsym(RTLD_NEXT, "accept");
    return fails() ? -1 : counted(next(fd, address, size));
}

int accept4(int fd, struct sockaddr *address, socklen_t *size, int flags) {
    static int (*next)(int, struct sockaddr *, socklen_t *, int);
    if (!next) next = (int (*)(int, struct sockaddr *, socklen_t *, int))dlsym(RTLD_NEXT, "accept4");
    return fails() ? -1 : counted(next(fd, address, size, flags));
}
