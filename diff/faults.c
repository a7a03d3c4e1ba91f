/* Makes one call of the program fail; faults.py compiles it and has it loaded before the C library.
   FAULT is KIND:N:HOW; KIND is of the list below, HOW is an errno, or 0 for a read or write that moves one byte; with FAULT_ON all later
   calls of the kind fail too. FAULT_FILE is shared memory: the calls of each kind, whether one failed, the place in
   its file, and whether something was written to standard error before it. */
#define _GNU_SOURCE
#include <dlfcn.h>
#include <errno.h>
#include <fcntl.h>
#include <pthread.h>
#include <stdarg.h>
#include <stdlib.h>
#include <string.h>
#include <sys/mman.h>
#include <unistd.h>

enum { OPEN, CREATE, READ, APPEND, PUT, GROW, THREAD, KINDS };
static const char *const names[KINDS] = { "open", "create", "read", "append", "put", "grow", "thread" };
static volatile long own[16], *shared = own; /* counts, then hit, place, whether the status line was said, and was when it hit */
static int wanted = -1, how, goes_on;
static long number;

__attribute__((constructor)) static void begin(void) {
    const char *fault = getenv("FAULT"), *file = getenv("FAULT_FILE");
    if (file) {
        int fd = open(file, O_RDWR);
        void *found = fd < 0 ? MAP_FAILED : mmap(0, sizeof own, PROT_READ | PROT_WRITE, MAP_SHARED, fd, 0);
        if (fd >= 0) close(fd);
        if (found == MAP_FAILED) abort();
        shared = found;
        memset((void *)shared, 0, sizeof own);
    }
    goes_on = getenv("FAULT_ON") != 0;
    for (int kind = 0; fault && kind < KINDS; kind++) {
        size_t length = strlen(names[kind]);
        if (!strncmp(fault, names[kind], length) && fault[length] == ':') {
            char *end;
            number = strtol(fault + length + 1, &end, 10);
            how = atoi(end + 1);
            wanted = kind;
        }
    }
}

static int fails(int kind, int fd) {
    long count = __sync_add_and_fetch(&shared[kind], 1);
    if (kind != wanted || (goes_on ? count < number : count != number)) return 0;
    if (!shared[KINDS]) shared[KINDS + 1] = fd < 0 ? 0 : lseek(fd, 0, SEEK_CUR), shared[KINDS + 3] = shared[KINDS + 2];
    shared[KINDS] = 1;
    return 1;
}

#define REAL(type, name, ...) static type (*real)(__VA_ARGS__); if (!real) real = (type (*)(__VA_ARGS__))dlsym(RTLD_NEXT, name)

int open(const char *path, int flags, ...) {
    va_list more;
    va_start(more, flags);
    int mode = flags & O_CREAT ? va_arg(more, int) : 0;
    va_end(more);
    REAL(int, "open", const char *, int, ...);
    if (strcmp(path, "/dev/null") && shared != own && fails(flags & O_CREAT ? CREATE : OPEN, -1)) { errno = how; return -1; }
    return real(path, flags, mode);
}

ssize_t read(int fd, void *to, size_t size) {
    REAL(ssize_t, "read", int, void *, size_t);
    if (size && fails(READ, fd)) { if (how) { errno = how; return -1; } size = 1; }
    return real(fd, to, size);
}

static ssize_t put(int fd, const void *from, size_t size) {
    REAL(ssize_t, "write", int, const void *, size_t);
    if (fd == 2) shared[KINDS + 2] = 1;
    if (fd != 2 && size && fails(fd == 1 ? PUT : APPEND, fd)) { if (how) { errno = how; return -1; } size = 1; }
    return real(fd, from, size);
}
ssize_t write(int fd, const void *from, size_t size) { return put(fd, from, size); }
ssize_t __write(int fd, const void *from, size_t size) { return put(fd, from, size); }

void *malloc(size_t size) {
    REAL(void *, "malloc", size_t);
    if (fails(GROW, -1)) { errno = how; return 0; }
    return real(size);
}

void *realloc(void *old, size_t size) {
    REAL(void *, "realloc", void *, size_t);
    if (fails(GROW, -1)) { errno = how; return 0; }
    return real(old, size);
}

int pthread_create(pthread_t *thread, const pthread_attr_t *with, void *(*run)(void *), void *of) {
    REAL(int, "pthread_create", pthread_t *, const pthread_attr_t *, void *(*)(void *), void *);
    return fails(THREAD, -1) ? how : real(thread, with, run, of);
}
