/* A malloc that counts, to be preloaded into a program. It counts from a beginning, which is the
   first byte to standard output or a connection that is accepted, to the next one or to the end;
   then it tells on standard error, as `heap FIRST MOST`, how many bytes were given and not given
   back at the beginning, and the most from there on. */
#define _GNU_SOURCE
#include <dlfcn.h>
#include <malloc.h>
#include <stdio.h>
#include <stdlib.h>
#include <sys/socket.h>
#include <sys/types.h>
#include <sys/uio.h>

static long live, first, most;
static int is_counting, is_writing;

static void *given(void *at) {
    if (at) live += (long)malloc_usable_size(at);
    if (is_counting && live > most) most = live;
    return at;
}

static void tell(void) { if (is_counting) dprintf(2, "heap %ld %ld\n", first, most); }

static void begin(void) {
    is_counting = 1;
    first = most = live;
}

#define NEXT(type, name, ...) static type (*next)(__VA_ARGS__); if (!next) next = (type (*)(__VA_ARGS__))dlsym(RTLD_NEXT, name)

void *malloc(size_t size) { NEXT(void *, "malloc", size_t); return given(next(size)); }

void *aligned_alloc(size_t alignment, size_t size) { NEXT(void *, "aligned_alloc", size_t, size_t); return given(next(alignment, size)); }

int posix_memalign(void **at, size_t alignment, size_t size) {
    NEXT(int, "posix_memalign", void **, size_t, size_t);
    int status = next(at, alignment, size);
    if (!status) given(*at);
    return status;
}

void *realloc(void *at, size_t size) {
    NEXT(void *, "realloc", void *, size_t);
    long before = at ? (long)malloc_usable_size(at) : 0;
    void *now = next(at, size);
    if (now) live -= before;
    return now ? given(now) : now;
}

void free(void *at) {
    NEXT(void, "free", void *);
    if (at) live -= (long)malloc_usable_size(at);
    next(at);
}

static void writing(int file) {
    if (file != 1 || is_writing) return;
    is_writing = 1;
    begin();
}

ssize_t write(int file, const void *from, size_t size) { NEXT(ssize_t, "write", int, const void *, size_t); writing(file); return next(file, from, size); }

ssize_t writev(int file, const struct iovec *from, int count) { NEXT(ssize_t, "writev", int, const struct iovec *, int); writing(file); return next(file, from, count); }

static int accepted(int peer) {
    if (peer < 0) return peer;
    tell();
    begin();
    return peer;
}

int accept(int socket, struct sockaddr *address, socklen_t *size) { NEXT(int, "accept", int, struct sockaddr *, socklen_t *); return accepted(next(socket, address, size)); }

int accept4(int socket, struct sockaddr *address, socklen_t *size, int flags) { NEXT(int, "accept4", int, struct sockaddr *, socklen_t *, int); return accepted(next(socket, address, size, flags)); }

__attribute__((destructor)) static void end(void) { tell(); }
