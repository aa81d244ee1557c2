// Watches a program's calls on the files of the folder DESK_WATCHED, and what it says. Each call that changes a file,
// or makes it safe, and each part of a line or a reply that left the program is noted in the file DESK_NOTES, in one
// order.
//
// DESK_FAILS has a kind of call, the name of a file, a number n, an error, and which calls fail so and are not made:
// `once` the n-th call of that kind on that file, `on` that one and each later one; and after `part` the n-th write is
// made of half its bytes, and the next one fails. DESK_ENDS has a kind, a name and a number too: the program is killed
// before that call. Where DESK_COUNTS is set, it is noted at the end how many calls of each kind there were on which
// file.
#define _GNU_SOURCE
#include <dlfcn.h>
#include <errno.h>
#include <fcntl.h>
#include <limits.h>
#include <signal.h>
#include <stdarg.h>
#include <stdio.h>
#include <stdlib.h>
#include <string.h>
#include <sys/file.h>
#include <sys/stat.h>
#include <sys/syscall.h>
#include <sys/uio.h>
#include <unistd.h>

// calls of a kind on a file
struct calls {
    char kind[16], name[NAME_MAX + 1];
    long count;
};

// a call that is to fail, or before which the program ends
struct chosen {
    struct calls of;
    long number;
    int error;
    char how[8];
};

static struct chosen failing, ending;
static struct calls counts[64];
static int is_counting;
static const char *folder;
static int notes = -1;

static struct chosen chosen(const char *variable) {
    struct chosen call = {{"", "", 0}, 0, 0, "once"};
    const char *words = getenv(variable);
    const char *form = "%15s %254s %ld %d %7s";
    if (words) sscanf(words, form, call.of.kind, call.of.name, &call.number, &call.error, call.how);
    return call;
}

__attribute__((constructor)) static void begin(void) {
    const char *path = getenv("DESK_NOTES");
    folder = getenv("DESK_WATCHED");
    is_counting = getenv("DESK_COUNTS") != NULL;
    failing = chosen("DESK_FAILS");
    ending = chosen("DESK_ENDS");
    int file = path ? (int)syscall(SYS_open, path, O_WRONLY | O_CREAT | O_APPEND | O_CLOEXEC, 0644) : -1;
    // (above the numbers that the program gets for its own files)
    if (file >= 0) notes = (int)syscall(SYS_fcntl, file, F_DUPFD_CLOEXEC, 500);
    if (file >= 0) close(file);
}

static void note(const char *kind, const char *name, long at, const void *bytes, size_t count) {
    char line[NAME_MAX + 80];
    if (notes < 0) return;
    int length = snprintf(line, sizeof line, "%s %s %ld %zu\n", kind, name, at, count);
    struct iovec parts[] = {{line, (size_t)length}, {(void *)bytes, count}, {"\n", 1}};
    if (syscall(SYS_writev, notes, parts, 3) < 0) _exit(99);
}

// the name of a path in the folder, `.` for the folder itself, or nothing
static const char *name_in(const char *path) {
    size_t length = folder ? strlen(folder) : 0;
    if (!length || strncmp(path, folder, length)) return NULL;
    if (!path[length]) return ".";
    return path[length] == '/' ? path + length + 1 : NULL;
}

static const char *name_of(int file) {
    static char path[PATH_MAX];
    char link[64];
    snprintf(link, sizeof link, "/proc/self/fd/%d", file);
    ssize_t length = readlink(link, path, sizeof path - 1);
    path[length < 0 ? 0 : length] = 0;
    return name_in(path);
}

static int is_of(const struct calls *calls, const char *kind, const char *name) {
    return !strcmp(calls->kind, kind) && !strcmp(calls->name, name);
}

static void count(const char *kind, const char *name) {
    size_t at = 0, most = sizeof counts / sizeof *counts;
    while (at < most && counts[at].count && !is_of(&counts[at], kind, name)) at++;
    if (at == most) _exit(99);
    snprintf(counts[at].kind, sizeof counts[at].kind, "%s", kind);
    snprintf(counts[at].name, sizeof counts[at].name, "%s", name);
    counts[at].count++;
}

__attribute__((destructor)) static void end(void) {
    for (struct calls *it = counts; is_counting && it->count; it++)
        note("calls", it->name, it->count, it->kind, strlen(it->kind));
}

// whether this is a chosen call: the one with its number, or with `on` a later one too, and with `part` the next one
static int is_next(struct chosen *call, const char *kind, const char *name) {
    if (!call->number || !is_of(&call->of, kind, name)) return 0;
    call->of.count++;
    if (!strcmp(call->how, "on")) return call->of.count >= call->number;
    return call->of.count == call->number + !strcmp(call->how, "part");
}

// whether this call is to fail; where the program is to end before it, it does
static int fails(const char *kind, const char *name) {
    if (!name) return 0;
    if (is_counting) count(kind, name);
    if (is_next(&ending, kind, name)) kill(getpid(), SIGKILL);
    if (!is_next(&failing, kind, name)) return 0;
    note("failed", name, failing.error, kind, strlen(kind));
    errno = failing.error;
    return 1;
}

// how many bytes of a write are to be written: where a part is chosen, half of them, and one byte is no part
static size_t taken(const char *name, size_t bytes) {
    int is_part = name && !strcmp(failing.how, "part") && is_of(&failing.of, "write", name);
    if (!is_part || failing.of.count != failing.number) return bytes;
    note("failed", name, 0, "write", 5);
    return (bytes + 1) / 2;
}

int open(const char *path, int how, ...) {
    va_list rest;
    va_start(rest, how);
    int mode = how & O_CREAT ? va_arg(rest, int) : 0;
    va_end(rest);
    char whole[PATH_MAX];
    struct stat found;
    snprintf(whole, sizeof whole, "%s", path);
    const char *name = name_in(whole);
    if (fails("open", name)) return -1;
    int is_there = !stat(path, &found);
    int file = (int)syscall(SYS_openat, AT_FDCWD, path, how, mode);
    if (file >= 0 && name && !is_there) note("made", name, 0, "", 0);
    return file;
}

ssize_t pread(int file, void *bytes, size_t count, off_t at) {
    if (fails("read", name_of(file))) return -1;
    return syscall(SYS_pread64, file, bytes, count, at);
}

ssize_t read(int file, void *bytes, size_t count) {
    if (fails("read", name_of(file))) return -1;
    return syscall(SYS_read, file, bytes, count);
}

ssize_t pwrite(int file, const void *bytes, size_t count, off_t at) {
    const char *name = name_of(file);
    if (fails("write", name)) return -1;
    count = taken(name, count);
    ssize_t written = syscall(SYS_pwrite64, file, bytes, count, at);
    if (written > 0 && name) note("write", name, at, bytes, (size_t)written);
    return written;
}

int ftruncate(int file, off_t length) {
    const char *name = name_of(file);
    if (fails("cut", name)) return -1;
    int answer = (int)syscall(SYS_ftruncate, file, length);
    if (!answer && name) note("cut", name, length, "", 0);
    return answer;
}

static int synced(int file, long call) {
    const char *name = name_of(file);
    if (fails("sync", name)) return -1;
    int answer = (int)syscall(call, file);
    if (!answer && name) note("sync", name, 0, "", 0);
    return answer;
}

int fsync(int file) { return synced(file, SYS_fsync); }
int fdatasync(int file) { return synced(file, SYS_fdatasync); }

// What is asked of a file beside its bytes: whether it is there and what it is, a lock, its owner and mode, and that
// the system forgets what it has read of it.

int statx(int folder_of, const char *restrict path, int how, unsigned mask, struct statx *restrict found) {
    if (fails("look", *path ? name_in(path) : name_of(folder_of))) return -1;
    return (int)syscall(SYS_statx, folder_of, path, how, mask, found);
}

char *realpath(const char *restrict path, char *restrict whole) {
    if (fails("look", name_in(path))) return NULL;
    return ((char *(*)(const char *, char *))dlsym(RTLD_NEXT, "realpath"))(path, whole);
}

int flock(int file, int how) { return fails("lock", name_of(file)) ? -1 : (int)syscall(SYS_flock, file, how); }

int fcntl(int file, int what, ...) {
    va_list rest;
    va_start(rest, what);
    void *more = va_arg(rest, void *);
    va_end(rest);
    if ((what == F_SETLK || what == F_OFD_SETLK) && fails("lock", name_of(file))) return -1;
    return (int)syscall(SYS_fcntl, file, what, more);
}

int fchown(int file, uid_t owner, gid_t group) {
    return fails("rights", name_of(file)) ? -1 : (int)syscall(SYS_fchown, file, owner, group);
}

int fchmod(int file, mode_t mode) {
    return fails("rights", name_of(file)) ? -1 : (int)syscall(SYS_fchmod, file, mode);
}

int posix_fadvise(int file, off_t at, off_t length, int advice) {
    if (fails("advise", name_of(file))) return errno;
    return syscall(SYS_fadvise64, file, at, length, advice) ? errno : 0;
}

ssize_t write(int file, const void *bytes, size_t count) {
    ssize_t written = syscall(SYS_write, file, bytes, count);
    if (written > 0 && (file == 1 || file == 2)) note("said", file == 1 ? "out" : "error", 0, bytes, (size_t)written);
    return written;
}

ssize_t send(int file, const void *bytes, size_t count, int how) {
    ssize_t sent = syscall(SYS_sendto, file, bytes, count, how, NULL, 0);
    if (sent > 0) note("said", "peer", file, bytes, (size_t)sent);
    return sent;
}

int open64(const char *, int, ...) __attribute__((alias("open")));
ssize_t pread64(int, void *, size_t, off_t) __attribute__((alias("pread")));
ssize_t pwrite64(int, const void *, size_t, off_t) __attribute__((alias("pwrite")));
int ftruncate64(int, off_t) __attribute__((alias("ftruncate")));
int fcntl64(int, int, ...) __attribute__((alias("fcntl")));
int posix_fadvise64(int, off_t, off_t, int) __attribute__((alias("posix_fadvise")));
