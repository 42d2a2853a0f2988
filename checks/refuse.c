/* A malloc that refuses one allocation, for checks: it is loaded before a program (LD_PRELOAD). What the environment names:
   REFUSE   the number, from 1, of the allocation that is refused
   SIZES    a file that gets the size of each allocation at the end, a line each
   SERVED   a file of four numbers, shared with whoever asks a server: which allocation of the next connection is to be refused (0 for
            none); how many the last one made; whether one of them was refused; and how often the server waited for a connection. A
            connection's allocations are those from one accept to the next. */
#define _GNU_SOURCE
#include <dlfcn.h>
#include <fcntl.h>
#include <malloc.h>
#include <stdio.h>
#include <stdlib.h>
#include <string.h>
#include <sys/mman.h>
#include <sys/socket.h>
#include <unistd.h>

struct served {
    long wanted, made, refused, waits;
};

static volatile struct served *served;
static long left, made;
/* The sizes of the first allocations; more aren't told. */
static size_t sizes[1 << 18];

__attribute__((constructor)) static void begin(void) {
    const char *number = getenv("REFUSE"), *path = getenv("SERVED");
    if (path) {
        int file = open(path, O_RDWR);
        void *at = mmap(NULL, sizeof(struct served), PROT_READ | PROT_WRITE, MAP_SHARED, file, 0);
        if (file < 0 || at == MAP_FAILED) abort();
        served = at;
        close(file);
    }
    made = 0;
    left = number ? atol(number) : 0;
}

__attribute__((destructor)) static void end(void) {
    const char *path = getenv("SIZES");
    if (!path) return;
    /* (the file's own memory is none of the program's) */
    long count = made;
    FILE *file = fopen(path, "w");
    if (!file || count > 1 << 18) abort();
    for (long place = 0; place < count; place++) fprintf(file, "%zu\n", sizes[place]);
    if (fclose(file) != 0) abort();
}

static int refuses(size_t size) {
    if (made < 1 << 18) sizes[made] = size;
    made++;
    if (served) served->made++;
    if (left <= 0 || --left != 0) return 0;
    if (served) served->refused = 1;
    return 1;
}

/* The server waits for a connection. */
static void wait_for_one(void) {
    if (!served) return;
    left = 0;
    __sync_synchronize();
    served->waits++;
}

/* It has one. */
static void begin_one(void) {
    if (!served) return;
    served->made = 0;
    served->refused = 0;
    left = served->wanted;
}

int accept(int fd, struct sockaddr *address, socklen_t *size) {
    static int (*next)(int, struct sockaddr *, socklen_t *);
    if (!next) next = (int (*)(int, struct sockaddr *, socklen_t *))dlsym(RTLD_NEXT, "accept");
    wait_for_one();
    int found = next(fd, address, size);
    begin_one();
    return found;
}

int accept4(int fd, struct sockaddr *address, socklen_t *size, int flags) {
    static int (*next)(int, struct sockaddr *, socklen_t *, int);
    if (!next) next = (int (*)(int, struct sockaddr *, socklen_t *, int))dlsym(RTLD_NEXT, "accept4");
    wait_for_one();
    int found = next(fd, address, size, flags);
    begin_one();
    return found;
}

void *malloc(size_t size) {
    static void *(*next)(size_t);
    if (!next) next = (void *(*)(size_t))dlsym(RTLD_NEXT, "malloc");
    return refuses(size) ? NULL : next(size);
}

/* (by the next malloc: the search for a calloc may need one) */
void *calloc(size_t count, size_t size) {
    static void *(*next)(size_t);
    size_t whole;
    if (!next) next = (void *(*)(size_t))dlsym(RTLD_NEXT, "malloc");
    if (__builtin_mul_overflow(count, size, &whole) || refuses(whole)) return NULL;
    void *at = next(whole);
    return at ? memset(at, 0, whole) : NULL;
}

void *realloc(void *at, size_t size) {
    static void *(*next)(void *, size_t);
    if (!next) next = (void *(*)(void *, size_t))dlsym(RTLD_NEXT, "realloc");
    return refuses(size) ? NULL : next(at, size);
}

void *aligned_alloc(size_t alignment, size_t size) {
    static void *(*next)(size_t, size_t);
    if (!next) next = (void *(*)(size_t, size_t))dlsym(RTLD_NEXT, "aligned_alloc");
    return refuses(size) ? NULL : next(alignment, size);
}

int posix_memalign(void **at, size_t alignment, size_t size) {
    static int (*next)(void **, size_t, size_t);
    if (!next) next = (int (*)(void **, size_t, size_t))dlsym(RTLD_NEXT, "posix_memalign");
    return refuses(size) ? 12 : next(at, alignment, size);
}

/* The program calls none of these, so that none is refused: a run that does has no result. */
void *memalign(size_t alignment, size_t size) { abort(); }

void *valloc(size_t size) { abort(); }

void *pvalloc(size_t size) { abort(); }

void *reallocarray(void *at, size_t count, size_t size) { abort(); }
