/* What the peers in C share. They are called as `stand` is, with WORK THREADS ROUNDS, and print the picoseconds a round, of the thread that
   took longest, after a sixteenth of the rounds that isn't timed. Nothing of it is proved. */
#define _GNU_SOURCE
#include <pthread.h>
#include <stdint.h>
#include <stdio.h>
#include <stdlib.h>
#include <string.h>
#include <time.h>

#define MOST_THREADS 64
#define NAMES 4096u

/* A compiler may not leave out what made this value, nor what is in memory. */
#define KEEP(value) __asm__ volatile("" : : "g"(value) : "memory")

struct work {
    const char *name;
    void (*enter)(int thread);
    void (*rounds)(int thread, long rounds);
    void (*leave)(int thread);
};

struct worker {
    const struct work *work;
    pthread_barrier_t *begin;
    int thread;
    long rounds;
    double took;
};

static double now(void) {
    struct timespec at;
    clock_gettime(CLOCK_MONOTONIC, &at);
    return at.tv_sec * 1e9 + at.tv_nsec;
}

static void *work_on(void *given) {
    struct worker *worker = given;
    const struct work *work = worker->work;
    if (work->enter)
        work->enter(worker->thread);
    pthread_barrier_wait(worker->begin);
    work->rounds(worker->thread, worker->rounds / 16);
    double begin = now();
    work->rounds(worker->thread, worker->rounds);
    worker->took = now() - begin;
    if (work->leave)
        work->leave(worker->thread);
    return NULL;
}

/* The work that the first word names, by as many threads and rounds as the next two say. */
static int time_work(const struct work *works, int words, char **word) {
    int threads = words > 2 ? atoi(word[2]) : 1;
    long rounds = words > 3 ? atol(word[3]) : 1 << 20;
    const struct work *work = works;
    while (work->name && (words < 2 || strcmp(work->name, word[1])))
        work++;
    if (!work->name || threads < 1 || threads > MOST_THREADS)
        return 2;
    pthread_barrier_t begin;
    pthread_barrier_init(&begin, NULL, threads);
    pthread_t running[MOST_THREADS];
    struct worker workers[MOST_THREADS];
    for (int n = 0; n < threads; n++) {
        workers[n] = (struct worker){work, &begin, n, rounds, 0};
        pthread_create(&running[n], NULL, work_on, &workers[n]);
    }
    double most = 0;
    for (int n = 0; n < threads; n++) {
        pthread_join(running[n], NULL);
        most = workers[n].took > most ? workers[n].took : most;
    }
    printf("%.0f picoseconds\n", most * 1000 / rounds);
    return 0;
}

/* The name of a round, in the order of `stand`. */
static inline uint64_t name_of(uint64_t round, int thread) { return (round * 2654435761u + (unsigned)thread) % NAMES; }
