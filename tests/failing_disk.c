// For LD_PRELOAD: a disk that fails. From the FAIL_SYNC-th fsync or fdatasync on each answers EIO; from the FAIL_WRITE-th
// pwrite on each answers EIO, or with FAIL_SHORT set writes half of its bytes first. At the KILL_AT-th of all of them the
// process is killed. What the program does then: rust/depot_tests/src/failing.rs.
#define _GNU_SOURCE
#include <dlfcn.h>
#include <errno.h>
#include <signal.h>
#include <stdatomic.h>
#include <stdlib.h>
#include <unistd.h>

static atomic_long syncs, writes, all;

// Whether the call with this number fails.
static int fails(const char *name, long number) {
    const char *from = getenv(name);
    return from != NULL && number >= atol(from);
}

static void kill_if_due(void) {
    if (fails("KILL_AT", atomic_fetch_add(&all, 1) + 1)) {
        kill(getpid(), SIGKILL);
    }
}

static int sync_by(const char *name, int file) {
    int (*next)(int) = (int (*)(int))dlsym(RTLD_NEXT, name);
    kill_if_due();
    if (fails("FAIL_SYNC", atomic_fetch_add(&syncs, 1) + 1)) {
        errno = EIO;
        return -1;
    }
    return next(file);
}

int fsync(int file) { return sync_by("fsync", file); }
int fdatasync(int file) { return sync_by("fdatasync", file); }

static ssize_t write_by(int file, const void *bytes, size_t count, off_t at) {
    ssize_t (*next)(int, const void *, size_t, off_t) =
        (ssize_t(*)(int, const void *, size_t, off_t))dlsym(RTLD_NEXT, "pwrite");
    kill_if_due();
    if (!fails("FAIL_WRITE", atomic_fetch_add(&writes, 1) + 1)) {
        return next(file, bytes, count, at);
    }
    if (getenv("FAIL_SHORT") != NULL) {
        (void)!next(file, bytes, count / 2, at);
    }
    errno = EIO;
    return -1;
}

ssize_t pwrite(int file, const void *bytes, size_t count, off_t at) { return write_by(file, bytes, count, at); }
ssize_t pwrite64(int file, const void *bytes, size_t count, off64_t at) { return write_by(file, bytes, count, at); }
