/* Loaded before the C library by tools/measure/faults: of the calls of one kind in a process one fails, or moves less.
 *
 * REFUSE_KIND    what happens to them: a name of `kinds` below
 * REFUSE_AT      the number of the call that it happens to, from 1; with 0 calls are counted alone
 * REFUSE_SEEN    a file of sizeof(struct seen) bytes that takes the count and what the call was
 * REFUSE_STOP    if it is there, the call stops the process for a debugger in place of failing
 *
 * Calls count from this library's start on, which is after the loader's own work and before `main`. The C library's
 * calls of its own count where they go through the same names, as the memory of a thread does.
 */
#define _GNU_SOURCE
#include <dlfcn.h>
#include <errno.h>
#include <fcntl.h>
#include <pthread.h>
#include <signal.h>
#include <stdarg.h>
#include <stdatomic.h>
#include <stdint.h>
#include <stdio.h>
#include <stdlib.h>
#include <string.h>
#include <sys/mman.h>
#include <sys/stat.h>
#include <sys/syscall.h>
#include <sys/uio.h>
#include <unistd.h>

enum object { MEMORY, READ, WRITE, OPEN, STATE, CLOSE, THREAD };
enum action { FAILS, INTERRUPTED, ONE_BYTE };

static const struct kind {
    const char *name;
    enum object object;
    enum action action;
    int goes_on; /* it happens to the later calls, too */
} kinds[] = {
    {"memory", MEMORY, FAILS, 0},
    {"memory-on", MEMORY, FAILS, 1},
    {"open", OPEN, FAILS, 0},
    {"state", STATE, FAILS, 0},
    {"close", CLOSE, FAILS, 0},
    {"read", READ, FAILS, 0},
    {"read-interrupted", READ, INTERRUPTED, 0},
    {"read-byte", READ, ONE_BYTE, 0},
    {"read-byte-on", READ, ONE_BYTE, 1},
    {"write", WRITE, FAILS, 0},
    {"write-interrupted", WRITE, INTERRUPTED, 0},
    {"write-byte", WRITE, ONE_BYTE, 0},
    {"write-byte-on", WRITE, ONE_BYTE, 1},
    {"thread", THREAD, FAILS, 0},
    {"thread-on", THREAD, FAILS, 1},
};

/* What tools/measure/faults reads: how many calls came, how many of them met the fault, and of the first of these the
 * function, the size that it was asked for, its descriptor, the bytes that this descriptor had moved before, and
 * the file. */
struct seen {
    _Atomic uint64_t calls, met;
    uint64_t size, descriptor, moved;
    char function[24], file[256];
};

static struct seen unread, *seen = &unread;
static const struct kind *kind;
static uint64_t at;
static int stops;
static _Atomic uint64_t moved[64];
static __typeof__(pthread_create) *start_thread;

void *__libc_malloc(size_t), *__libc_calloc(size_t, size_t), *__libc_realloc(void *, size_t);
void *__libc_memalign(size_t, size_t);

__attribute__((constructor)) static void prepare(void) {
    const char *name = getenv("REFUSE_KIND"), *number = getenv("REFUSE_AT"), *file = getenv("REFUSE_SEEN");
    start_thread = (__typeof__(pthread_create) *)dlsym(RTLD_NEXT, "pthread_create");
    if (!name || !number || !file) return;
    int descriptor = syscall(SYS_openat, AT_FDCWD, file, O_RDWR | O_CLOEXEC, 0);
    void *page = mmap(NULL, sizeof *seen, PROT_READ | PROT_WRITE, MAP_SHARED, descriptor, 0);
    syscall(SYS_close, descriptor);
    if (page == MAP_FAILED) return;
    seen = page;
    at = strtoull(number, NULL, 10);
    stops = getenv("REFUSE_STOP") != NULL;
    for (size_t i = 0; i < sizeof kinds / sizeof *kinds; i++)
        if (!strcmp(kinds[i].name, name)) kind = &kinds[i];
}

static uint64_t moved_before(int descriptor) {
    return descriptor >= 0 && descriptor < 64 ? moved[descriptor] : 0;
}

/* The name of an open file. It is made here, since a call of the C library may allocate. */
static void name_file(int descriptor) {
    char link[32] = "/proc/self/fd/", digits[12];
    int count = 0, end = 14;
    for (unsigned rest = descriptor; count == 0 || rest; rest /= 10) digits[count++] = '0' + rest % 10;
    while (count) link[end++] = digits[--count];
    syscall(SYS_readlink, link, seen->file, sizeof seen->file - 1);
}

/* Counts a call, and says whether the fault is its. */
static int meets(enum object object, const char *function, uint64_t size, int descriptor, const char *file) {
    if (!kind || kind->object != object) return 0;
    uint64_t number = ++seen->calls;
    if (!at || number < at || (number > at && !kind->goes_on)) return 0;
    if (stops) raise(SIGTRAP);
    if (seen->met++ == 0) {
        seen->size = size;
        seen->descriptor = descriptor;
        seen->moved = moved_before(descriptor);
        strncpy(seen->function, function, sizeof seen->function - 1);
        if (file) strncpy(seen->file, file, sizeof seen->file - 1);
        else if (descriptor >= 0) name_file(descriptor);
    }
    return 1;
}

static int lacks(const char *function, uint64_t size) {
    if (!meets(MEMORY, function, size, -1, NULL)) return 0;
    errno = ENOMEM;
    return 1;
}

void *malloc(size_t size) {
    return lacks("malloc", size) ? NULL : __libc_malloc(size);
}

void *calloc(size_t count, size_t size) {
    return lacks("calloc", count * size) ? NULL : __libc_calloc(count, size);
}

void *realloc(void *block, size_t size) {
    return lacks("realloc", size) ? NULL : __libc_realloc(block, size);
}

void *reallocarray(void *block, size_t count, size_t size) {
    size_t bytes;
    if (__builtin_mul_overflow(count, size, &bytes)) return errno = ENOMEM, NULL;
    return lacks("reallocarray", bytes) ? NULL : __libc_realloc(block, bytes);
}

void *memalign(size_t alignment, size_t size) {
    return lacks("memalign", size) ? NULL : __libc_memalign(alignment, size);
}

void *aligned_alloc(size_t alignment, size_t size) {
    return lacks("aligned_alloc", size) ? NULL : __libc_memalign(alignment, size);
}

int posix_memalign(void **out, size_t alignment, size_t size) {
    int before = errno;
    void *block = lacks("posix_memalign", size) ? NULL : __libc_memalign(alignment, size);
    errno = before;
    if (!block) return ENOMEM;
    *out = block;
    return 0;
}

/* The Nth fails, or moves one byte: for the others, and where there is none to move, the call as it is. */
static ssize_t moves(enum object object, const char *function, long call, int descriptor, const struct iovec *parts,
                     int count, off_t place) {
    size_t size = 0;
    int vector = call == SYS_readv || call == SYS_writev || call == SYS_preadv || call == SYS_pwritev;
    for (int i = 0; i < count; i++) size += parts[i].iov_len;
    int has = meets(object, function, size, descriptor, NULL);
    if (has && kind->action != ONE_BYTE) {
        errno = kind->action == FAILS ? EIO : EINTR;
        return -1;
    }
    while (has && count && parts->iov_len == 0) parts++, count--;
    struct iovec first = {count ? parts->iov_base : NULL, 1};
    if (has && count) parts = &first, count = 1;
    ssize_t given = vector ? syscall(call, descriptor, parts, count, place, 0)
                           : syscall(call, descriptor, parts->iov_base, parts->iov_len, place);
    if (given > 0 && descriptor >= 0 && descriptor < 64) moved[descriptor] += given;
    return given;
}

#define ONE(OBJECT, NAME, CALL, POINTER) \
    ssize_t NAME(int descriptor, POINTER block, size_t size) { \
        struct iovec part = {(void *)block, size}; \
        return moves(OBJECT, #NAME, CALL, descriptor, &part, 1, 0); \
    }
#define ONE_AT(OBJECT, NAME, CALL, POINTER) \
    ssize_t NAME(int descriptor, POINTER block, size_t size, off_t place) { \
        struct iovec part = {(void *)block, size}; \
        return moves(OBJECT, #NAME, CALL, descriptor, &part, 1, place); \
    }
#define MANY(OBJECT, NAME, CALL) \
    ssize_t NAME(int descriptor, const struct iovec *parts, int count) { \
        return moves(OBJECT, #NAME, CALL, descriptor, parts, count, 0); \
    }
#define MANY_AT(OBJECT, NAME, CALL) \
    ssize_t NAME(int descriptor, const struct iovec *parts, int count, off_t place) { \
        return moves(OBJECT, #NAME, CALL, descriptor, parts, count, place); \
    }

ONE(READ, read, SYS_read, void *)
ONE(WRITE, write, SYS_write, const void *)
ONE_AT(READ, pread, SYS_pread64, void *)
ONE_AT(READ, pread64, SYS_pread64, void *)
ONE_AT(WRITE, pwrite, SYS_pwrite64, const void *)
ONE_AT(WRITE, pwrite64, SYS_pwrite64, const void *)
MANY(READ, readv, SYS_readv)
MANY(WRITE, writev, SYS_writev)
MANY_AT(READ, preadv, SYS_preadv)
MANY_AT(READ, preadv64, SYS_preadv)
MANY_AT(WRITE, pwritev, SYS_pwritev)
MANY_AT(WRITE, pwritev64, SYS_pwritev)

static int opened(const char *function, int folder, const char *file, int flags, int mode) {
    if (meets(OPEN, function, 0, -1, file)) {
        errno = EMFILE;
        return -1;
    }
    int descriptor = syscall(SYS_openat, folder, file, flags, mode);
    if (descriptor >= 0 && descriptor < 64) moved[descriptor] = 0;
    return descriptor;
}

static int mode_of(int flags, va_list rest) {
    return flags & O_CREAT || (flags & O_TMPFILE) == O_TMPFILE ? va_arg(rest, int) : 0;
}

#define OPENS(NAME, PARAMETERS, FOLDER) \
    int NAME PARAMETERS { \
        va_list rest; \
        va_start(rest, flags); \
        int mode = mode_of(flags, rest); \
        va_end(rest); \
        return opened(#NAME, FOLDER, file, flags, mode); \
    }

OPENS(open, (const char *file, int flags, ...), AT_FDCWD)
OPENS(open64, (const char *file, int flags, ...), AT_FDCWD)
OPENS(openat, (int folder, const char *file, int flags, ...), folder)
OPENS(openat64, (int folder, const char *file, int flags, ...), folder)

int statx(int folder, const char *restrict file, int flags, unsigned mask, struct statx *restrict state) {
    if (meets(STATE, "statx", 0, *file ? -1 : folder, *file ? file : NULL)) {
        errno = EIO;
        return -1;
    }
    return syscall(SYS_statx, folder, file, flags, mask, state);
}

/* The descriptor is closed, as Linux closes it, whatever the call says. */
int close(int descriptor) {
    int has = meets(CLOSE, "close", 0, descriptor, NULL), result = syscall(SYS_close, descriptor);
    if (!has) return result;
    errno = EIO;
    return -1;
}

int pthread_create(pthread_t *thread, const pthread_attr_t *attributes, void *(*routine)(void *), void *value) {
    if (meets(THREAD, "pthread_create", 0, -1, NULL)) return EAGAIN;
    return start_thread(thread, attributes, routine, value);
}
