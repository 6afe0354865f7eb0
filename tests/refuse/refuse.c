/* Preloaded into a program, refuses what it asks of the system: memory, threads, reads of its input and writes of its output.
 *
 * REFUSE names a file of words of 64 bits, which is shared with the test, so the test can look at it and change it while the
 * program runs. Each of the four kinds has four words: how many calls were made, the first and the last one that is
 * refused (from 1; a first of 0: none), and how many were refused. Three words follow: the most bytes that a read or a write
 * moves (0: as many as are asked for); what a refused write returns (0: an error; 1: that it took no byte); and whether each
 * write moves all its bytes, whatever the most is (1: it does). */
#include <errno.h>
#include <fcntl.h>
#include <pthread.h>
#include <stdatomic.h>
#include <stdint.h>
#include <stdlib.h>
#include <sys/mman.h>
#include <sys/socket.h>
#include <sys/syscall.h>
#include <unistd.h>

struct kind {
    _Atomic int64_t calls, first, last, refused;
};

struct words {
    struct kind memory, threads, reads, writes;
    _Atomic int64_t piece, takes_none, whole_writes;
};

static struct words *words;

extern void *__libc_malloc(size_t);
extern void *__libc_calloc(size_t, size_t);
extern void *__libc_realloc(void *, size_t);

__attribute__((constructor)) static void begin(void) {
    const char *name = getenv("REFUSE");
    int file = name ? open(name, O_RDWR) : -1;
    if (file < 0) return;
    void *at = mmap(NULL, sizeof *words, PROT_READ | PROT_WRITE, MAP_SHARED, file, 0);
    close(file);
    if (at != MAP_FAILED) words = at;
}

/* Counts a call, and says whether it is to be refused. */
static int is_refused(struct kind *kind) {
    int64_t call = atomic_fetch_add(&kind->calls, 1) + 1;
    int64_t first = atomic_load(&kind->first);
    int refused = first && call >= first && call <= atomic_load(&kind->last);
    if (refused) atomic_fetch_add(&kind->refused, 1);
    return refused;
}

static void *no_memory(void) {
    errno = ENOMEM;
    return NULL;
}

void *malloc(size_t size) {
    return words && is_refused(&words->memory) ? no_memory() : __libc_malloc(size);
}

void *calloc(size_t count, size_t size) {
    return words && is_refused(&words->memory) ? no_memory() : __libc_calloc(count, size);
}

void *realloc(void *old, size_t size) {
    return words && is_refused(&words->memory) ? no_memory() : __libc_realloc(old, size);
}

typedef int create_thread(pthread_t *, const pthread_attr_t *, void *(*)(void *), void *);
extern void *dlsym(void *, const char *);

int pthread_create(pthread_t *thread, const pthread_attr_t *how, void *(*run)(void *), void *with) {
    if (words && is_refused(&words->threads)) return EAGAIN;
    return ((create_thread *)dlsym((void *)-1l, "pthread_create"))(thread, how, run, with);
}

static size_t piece_of(size_t size) {
    int64_t most = words ? atomic_load(&words->piece) : 0;
    return most && size > (size_t)most ? (size_t)most : size;
}

static size_t written_of(size_t size) {
    return words && atomic_load(&words->whole_writes) ? size : piece_of(size);
}

static ssize_t no_read(void) {
    errno = EIO;
    return -1;
}

static ssize_t no_write(void) {
    if (atomic_load(&words->takes_none)) return 0;
    errno = EIO;
    return -1;
}

ssize_t read(int file, void *at, size_t size) {
    if (file == 0 && words && is_refused(&words->reads)) return no_read();
    return syscall(SYS_read, file, at, file == 0 ? piece_of(size) : size);
}

ssize_t recv(int file, void *at, size_t size, int how) {
    if (words && is_refused(&words->reads)) return no_read();
    return syscall(SYS_recvfrom, file, at, piece_of(size), how, NULL, NULL);
}

ssize_t write(int file, const void *at, size_t size) {
    if (file == 1 && words && is_refused(&words->writes)) return no_write();
    return syscall(SYS_write, file, at, file == 1 ? written_of(size) : size);
}

ssize_t send(int file, const void *at, size_t size, int how) {
    if (words && is_refused(&words->writes)) return no_write();
    return syscall(SYS_sendto, file, at, written_of(size), how, NULL, 0);
}
