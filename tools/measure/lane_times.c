/* Loaded before the C library by tools/measure/lane_times: notes when a program starts and joins threads, and what they take.
 *
 * LANE_TIMES    the file that takes the notes: how many there are, then each as struct note
 */
#define _GNU_SOURCE
#include <dlfcn.h>
#include <fcntl.h>
#include <pthread.h>
#include <stdatomic.h>
#include <stdint.h>
#include <stdlib.h>
#include <sys/mman.h>
#include <time.h>

enum what { BEGUN, CREATES, RUNS, ENDS, JOINS, JOINED };

struct note {
    int32_t what, thread; /* the caller's thread is 0, the others count from 1 */
    int64_t moment, processor; /* nanoseconds on the clock, and of the thread's processor time */
};

#define MOST 1000000

static struct notes {
    atomic_long count;
    struct note note[MOST];
} *notes;
static atomic_int threads;
static __thread int own;

static int64_t now(clockid_t clock) {
    struct timespec time;
    clock_gettime(clock, &time);
    return time.tv_sec * INT64_C(1000000000) + time.tv_nsec;
}

static void note(enum what what) {
    long at = notes ? atomic_fetch_add(&notes->count, 1) : MOST;
    if (at < MOST)
        notes->note[at] = (struct note){what, own, now(CLOCK_MONOTONIC), now(CLOCK_THREAD_CPUTIME_ID)};
}

struct call {
    void *(*function)(void *);
    void *word;
    int thread;
};

static void *noted(void *given) {
    struct call call = *(struct call *)given;
    free(given);
    own = call.thread;
    note(RUNS);
    void *result = call.function(call.word);
    note(ENDS);
    return result;
}

int pthread_create(pthread_t *thread, const pthread_attr_t *attributes, void *(*function)(void *), void *word) {
    int (*real)(pthread_t *, const pthread_attr_t *, void *(*)(void *), void *) = dlsym(RTLD_NEXT, "pthread_create");
    struct call *call = malloc(sizeof *call);
    *call = (struct call){function, word, atomic_fetch_add(&threads, 1) + 1};
    note(CREATES);
    return real(thread, attributes, noted, call);
}

int pthread_join(pthread_t thread, void **result) {
    int (*real)(pthread_t, void **) = dlsym(RTLD_NEXT, "pthread_join");
    note(JOINS);
    int status = real(thread, result);
    note(JOINED);
    return status;
}

__attribute__((constructor)) static void begin(void) {
    int file = open(getenv("LANE_TIMES"), O_RDWR | O_CREAT | O_TRUNC, 0600);
    if (file < 0 || posix_fallocate(file, 0, sizeof *notes)) return;
    void *made = mmap(NULL, sizeof *notes, PROT_READ | PROT_WRITE, MAP_SHARED, file, 0);
    if (made == MAP_FAILED) return;
    notes = made;
    note(BEGUN);
}
