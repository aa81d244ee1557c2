// Ends the program by SIGKILL at its n-th write, cut or sync of a file, where DESK_ENDS_AT is n: before the call, or,
// where DESK_ENDS_WITHIN is set and it is a write, once half of its bytes are written.
#define _GNU_SOURCE
#include <dlfcn.h>
#include <signal.h>
#include <stdlib.h>
#include <unistd.h>

// how many of the bytes are written before the end, or -1 where this is not the end
static ssize_t at_end(size_t count) {
    static long calls;
    const char *at = getenv("DESK_ENDS_AT");
    if (!at || ++calls != atol(at)) return -1;
    return getenv("DESK_ENDS_WITHIN") ? (ssize_t)(count / 2) : 0;
}

static void end(void) { kill(getpid(), SIGKILL); }

#define NEXT(type, name) ((type)dlsym(RTLD_NEXT, name))

typedef ssize_t (*write_at)(int, const void *, size_t, off64_t);

ssize_t pwrite64(int file, const void *bytes, size_t count, off64_t at) {
    write_at next = NEXT(write_at, "pwrite64");
    ssize_t written = at_end(count);
    if (written < 0) return next(file, bytes, count, at);
    next(file, bytes, (size_t)written, at);
    end();
    return -1;
}

ssize_t pwrite(int file, const void *bytes, size_t count, off_t at) { return pwrite64(file, bytes, count, at); }

int ftruncate64(int file, off64_t length) {
    if (at_end(0) >= 0) end();
    return NEXT(int (*)(int, off64_t), "ftruncate64")(file, length);
}

int ftruncate(int file, off_t length) { return ftruncate64(file, length); }

int fsync(int file) {
    if (at_end(0) >= 0) end();
    return NEXT(int (*)(int), "fsync")(file);
}

int fdatasync(int file) {
    if (at_end(0) >= 0) end();
    return NEXT(int (*)(int), "fdatasync")(file);
}
