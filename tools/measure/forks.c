/* What threads of work cost that are started and joined, as a tree and one after another:
 *
 *     cc -O2 -pthread -o /tmp/forks tools/measure/forks.c && /tmp/forks MOST WORK BETWEEN ROUNDS > table.md
 *
 * In each round 2 to MOST threads, the caller's among them, count for WORK microseconds each, and then the caller counts
 * for BETWEEN microseconds. In a tree each half of the threads is started by one, and that one starts half of its own.
 * The table has the median of what a round takes. If each thread had a processor at once, this would be WORK. Nothing
 * else should run beside it.
 */
#include <pthread.h>
#include <stdio.h>
#include <stdlib.h>
#include <time.h>

static double counts_in_a_microsecond, work;

static double now(void) {
    struct timespec moment;
    clock_gettime(CLOCK_MONOTONIC, &moment);
    return moment.tv_sec * 1e6 + moment.tv_nsec / 1e3;
}

static void count_up(double counts) {
    volatile unsigned long sum = 0;
    for (unsigned long at = 0; at < counts; at++) sum += at;
}

static void spread(long threads, int is_tree);

static void *spread_tree(void *threads) {
    spread((long)threads, 1);
    return NULL;
}

static void spread(long threads, int is_tree) {
    if (threads < 2) {
        count_up(work * counts_in_a_microsecond);
        return;
    }
    long started = is_tree ? threads / 2 : 1;
    pthread_t thread;
    if (pthread_create(&thread, NULL, spread_tree, (void *)started)) {
        perror("pthread_create");
        exit(1);
    }
    spread(threads - started, is_tree);
    pthread_join(thread, NULL);
}

static int order(const void *one, const void *other) {
    double difference = *(const double *)one - *(const double *)other;
    return (difference > 0) - (difference < 0);
}

int main(int words, char **word) {
    if (words != 5) return 2;
    long most = atol(word[1]), rounds = atol(word[4]);
    double between = atof(word[3]), *took = malloc(rounds * sizeof *took);
    work = atof(word[2]);
    if (rounds < 1 || took == NULL) return 2;
    double begun = now();
    count_up(1e8);
    counts_in_a_microsecond = 1e8 / (now() - begun);
    printf("| Threads of %.0f µs | Started as a tree | One after another |\n|---|---|---|\n", work);
    for (long threads = 2; threads <= most; threads++) {
        printf("| %ld ", threads);
        for (int is_tree = 1; is_tree >= 0; is_tree--) {
            for (long round = 0; round < rounds; round++) {
                count_up(between * counts_in_a_microsecond);
                begun = now();
                spread(threads, is_tree);
                took[round] = now() - begun;
            }
            qsort(took, rounds, sizeof *took, order);
            printf("| %.0f µs ", took[rounds / 2]);
        }
        printf("|\n");
    }
    return 0;
}
