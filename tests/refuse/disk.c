/* Preloaded into a program, makes its disk full, or makes syncs fail.
 *
 * DISK names a file of two words of 64 bits, which is shared with the test, so the test can look at it and change it while the program
 * runs: how many more bytes the disk takes, and how many more syncs succeed (below 0: any number). As on a full disk, the write that
 * passes the end takes what there is room for, and the next one fails. */
#define _GNU_SOURCE
#include <errno.h>
#include <fcntl.h>
#include <stdatomic.h>
#include <stdint.h>
#include <stdlib.h>
#include <sys/mman.h>
#include <sys/syscall.h>
#include <unistd.h>

struct words {
    _Atomic int64_t room, syncs;
};

static struct words *words;

__attribute__((constructor)) static void begin(void) {
    const char *name = getenv("DISK");
    int file = name ? open(name, O_RDWR) : -1;
    if (file < 0) return;
    void *at = mmap(NULL, sizeof *words, PROT_READ | PROT_WRITE, MAP_SHARED, file, 0);
    close(file);
    if (at != MAP_FAILED) words = at;
}

ssize_t pwrite(int file, const void *at, size_t size, off_t place) {
    int64_t room = words ? atomic_load(&words->room) : -1;
    if (room == 0) {
        errno = ENOSPC;
        return -1;
    }
    if (room > 0 && size > (size_t)room) size = (size_t)room;
    ssize_t taken = syscall(SYS_pwrite64, file, at, size, place);
    if (room > 0 && taken > 0) atomic_fetch_sub(&words->room, taken);
    return taken;
}

ssize_t pwrite64(int file, const void *at, size_t size, off_t place) {
    return pwrite(file, at, size, place);
}

/* Whether a sync is to fail. */
static int fails(void) {
    int64_t syncs = words ? atomic_load(&words->syncs) : -1;
    if (syncs > 0) atomic_fetch_sub(&words->syncs, 1);
    if (syncs == 0) errno = EIO;
    return syncs == 0;
}

int fsync(int file) {
    return fails() ? -1 : (int)syscall(SYS_fsync, file);
}

int fdatasync(int file) {
    return fails() ? -1 : (int)syscall(SYS_fdatasync, file);
}
