// Counts the requests of a program for exactly as many bytes of memory as DESK_SIZE gives, in the first eight bytes of
// the file that DESK_COUNTED names. It is loaded before the C library, whose own functions it calls.
#include <fcntl.h>
#include <stdlib.h>
#include <sys/mman.h>
#include <unistd.h>

void *__libc_malloc(size_t);
void *__libc_calloc(size_t, size_t);
void *__libc_realloc(void *, size_t);

static size_t wanted;
static long *counted;

__attribute__((constructor)) static void begin(void) {
    const char *bytes = getenv("DESK_SIZE"), *path = getenv("DESK_COUNTED");
    int file = path ? open(path, O_RDWR | O_CREAT, 0600) : -1;
    if (!bytes || file < 0 || ftruncate(file, sizeof *counted)) _exit(3);
    counted = mmap(0, sizeof *counted, PROT_READ | PROT_WRITE, MAP_SHARED, file, 0);
    if (counted == MAP_FAILED) _exit(3);
    wanted = strtoul(bytes, 0, 10);
}

static void count(size_t size) {
    if (wanted && size == wanted) ++*counted;
}

void *malloc(size_t size) {
    count(size);
    return __libc_malloc(size);
}

void *calloc(size_t many, size_t size) {
    count(many * size);
    return __libc_calloc(many, size);
}

void *realloc(void *block, size_t size) {
    count(size);
    return __libc_realloc(block, size);
}
