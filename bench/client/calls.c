/* Preloaded into a program, counts the system calls that it makes through the C library, and its memory.

   CALLS names a file of words of 64 bits, which is shared with the test, so the test can read it while the program runs: reads, writes, waits for
   events, the other calls that a server makes, and the blocks that are taken and not given back, and their bytes. What the C library calls within
   itself, such as a mutex that waits, is not counted. */
#define _GNU_SOURCE
#include <dlfcn.h>
#include <fcntl.h>
#include <malloc.h>
#include <poll.h>
#include <stdarg.h>
#include <stdatomic.h>
#include <stdint.h>
#include <stdlib.h>
#include <sys/epoll.h>
#include <sys/mman.h>
#include <sys/socket.h>
#include <sys/uio.h>
#include <time.h>
#include <unistd.h>

enum { READS, WRITES, WAITS, OTHERS, BLOCKS, BYTES, WORDS };

static _Atomic int64_t *words;

extern void *__libc_malloc(size_t), *__libc_calloc(size_t, size_t), *__libc_realloc(void *, size_t), *__libc_memalign(size_t, size_t);
extern void __libc_free(void *);

__attribute__((constructor)) static void begin(void) {
    const char *name = getenv("CALLS");
    int file = name ? open(name, O_RDWR) : -1;
    if (file < 0) return;
    void *at = mmap(NULL, WORDS * sizeof *words, PROT_READ | PROT_WRITE, MAP_SHARED, file, 0);
    close(file);
    if (at != MAP_FAILED) words = at;
}

/* Defines a function that counts a call and makes it. */
#define COUNTED(word, type, name, takes, gives)                                     \
    type name takes {                                                               \
        static type(*next) takes;                                                   \
        if (!next) next = (type(*) takes)dlsym(RTLD_NEXT, #name);                   \
        if (words) atomic_fetch_add(&words[word], 1);                               \
        return next gives;                                                          \
    }

COUNTED(READS, ssize_t, read, (int fd, void *to, size_t size), (fd, to, size))
COUNTED(READS, ssize_t, readv, (int fd, const struct iovec *to, int count), (fd, to, count))
COUNTED(READS, ssize_t, recv, (int fd, void *to, size_t size, int flags), (fd, to, size, flags))
COUNTED(READS, ssize_t, recvmsg, (int fd, struct msghdr *to, int flags), (fd, to, flags))
COUNTED(WRITES, ssize_t, write, (int fd, const void *from, size_t size), (fd, from, size))
COUNTED(WRITES, ssize_t, writev, (int fd, const struct iovec *from, int count), (fd, from, count))
COUNTED(WRITES, ssize_t, send, (int fd, const void *from, size_t size, int flags), (fd, from, size, flags))
COUNTED(WRITES, ssize_t, sendmsg, (int fd, const struct msghdr *from, int flags), (fd, from, flags))
COUNTED(WAITS, int, epoll_wait, (int fd, struct epoll_event *to, int most, int time), (fd, to, most, time))
COUNTED(WAITS, int, poll, (struct pollfd *all, nfds_t count, int time), (all, count, time))
COUNTED(OTHERS, int, epoll_ctl, (int fd, int what, int other, struct epoll_event *event), (fd, what, other, event))
COUNTED(OTHERS, int, setsockopt, (int fd, int level, int name, const void *value, socklen_t size), (fd, level, name, value, size))
COUNTED(OTHERS, int, shutdown, (int fd, int how), (fd, how))
COUNTED(OTHERS, int, close, (int fd), (fd))
COUNTED(OTHERS, int, sched_yield, (void), ())
COUNTED(OTHERS, int, nanosleep, (const struct timespec *wanted, struct timespec *rest), (wanted, rest))

/* Counts a block that was taken, if there is one. */
static void *taken(void *block) {
    if (words && block) {
        atomic_fetch_add(&words[BLOCKS], 1);
        atomic_fetch_add(&words[BYTES], malloc_usable_size(block));
    }
    return block;
}

/* Counts a block that is given back, if there is one. */
static void *given(void *block) {
    if (words && block) {
        atomic_fetch_sub(&words[BLOCKS], 1);
        atomic_fetch_sub(&words[BYTES], malloc_usable_size(block));
    }
    return block;
}

void *malloc(size_t size) { return taken(__libc_malloc(size)); }

void *calloc(size_t count, size_t size) { return taken(__libc_calloc(count, size)); }

void *aligned_alloc(size_t alignment, size_t size) { return taken(__libc_memalign(alignment, size)); }

int posix_memalign(void **to, size_t alignment, size_t size) { return (*to = aligned_alloc(alignment, size)) ? 0 : 12; }

void *realloc(void *block, size_t size) {
    void *found = __libc_realloc(given(block), size);
    /* a block that cannot be made larger stays */
    taken(!found && size ? block : found);
    return found;
}

void free(void *block) { __libc_free(given(block)); }

/* The calls without a function of their own, such as those of a futex. */
long syscall(long number, ...) {
    static long (*next)(long, ...);
    if (!next) next = (long (*)(long, ...))dlsym(RTLD_NEXT, "syscall");
    va_list rest;
    va_start(rest, number);
    long of[6];
    for (int at = 0; at < 6; at++) of[at] = va_arg(rest, long);
    va_end(rest);
    if (words) atomic_fetch_add(&words[OTHERS], 1);
    return next(number, of[0], of[1], of[2], of[3], of[4], of[5]);
}
