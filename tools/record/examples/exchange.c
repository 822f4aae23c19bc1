/* A program of some threads that free each other's blocks, and counts its calls:
       exchange THREADS ROUNDS
   In a round a thread takes a block, puts it into one of the places that all share, and frees what was there, which another thread may have
   taken. At the end it prints how often it made each call. The C library makes some of its own besides, the same ones where ROUNDS is 0. */
#define _GNU_SOURCE
#include <malloc.h>
#include <pthread.h>
#include <stdatomic.h>
#include <stdint.h>
#include <stdio.h>
#include <stdlib.h>
#include <string.h>

#define MOST_THREADS 64
#define PLACES 1024

enum call { MALLOC, CALLOC, REALLOC, ALIGNED_ALLOC, MEMALIGN, POSIX_MEMALIGN, FREE, CALLS };

static const char *const names[CALLS] = {"malloc", "calloc", "realloc", "aligned_alloc", "memalign", "posix_memalign", "free"};

struct worker {
    pthread_t thread;
    uint64_t state;
    long rounds;
    unsigned long calls[CALLS];
};

static void *_Atomic places[PLACES];
static pthread_barrier_t all_there;

/* The next number of a worker, below this bound. */
static unsigned draw(struct worker *worker, unsigned bound) {
    worker->state = worker->state * 6364136223846793005u + 1442695040888963407u;
    return (worker->state >> 33) % bound;
}

/* Sizes as programs have them: a few are common, most are small, and some are large. */
static size_t draw_size(struct worker *worker) {
    static const size_t common[] = {24, 32, 64, 112};
    unsigned way = draw(worker, 100);
    if (way < 60)
        return common[draw(worker, 4)];
    return way < 99 ? 1 + draw(worker, 600) : 1 + draw(worker, 8000);
}

static void *take(struct worker *worker) {
    size_t size = draw_size(worker);
    unsigned way = draw(worker, 64);
    void *block = NULL;
    if (way == 0) {
        worker->calls[ALIGNED_ALLOC]++;
        block = aligned_alloc(64, (size + 63) / 64 * 64);
    } else if (way == 1) {
        worker->calls[MEMALIGN]++;
        block = memalign(32, size);
    } else if (way == 2) {
        worker->calls[POSIX_MEMALIGN]++;
        if (posix_memalign(&block, 128, size))
            abort();
    } else if (way < 8) {
        worker->calls[CALLOC]++;
        block = calloc(1, size);
    } else {
        worker->calls[MALLOC]++;
        block = malloc(size);
    }
    if (way >= 8 && way < 12) {
        worker->calls[REALLOC]++;
        size *= 2;
        block = realloc(block, size);
    }
    if (!block)
        abort();
    memset(block, 1, size);
    return block;
}

static void *work(void *given) {
    struct worker *worker = given;
    pthread_barrier_wait(&all_there);
    for (long round = 0; round < worker->rounds; round++) {
        void *old = atomic_exchange(&places[draw(worker, PLACES)], take(worker));
        worker->calls[FREE]++;
        free(old);
    }
    return NULL;
}

int main(int words, char **word) {
    int threads = words == 3 ? atoi(word[1]) : 0;
    if (threads < 1 || threads > MOST_THREADS) {
        fprintf(stderr, "usage: exchange THREADS ROUNDS\n");
        return 2;
    }
    static struct worker workers[MOST_THREADS];
    pthread_barrier_init(&all_there, NULL, threads);
    for (int n = 0; n < threads; n++) {
        workers[n].state = n + 1;
        workers[n].rounds = atol(word[2]);
        if (pthread_create(&workers[n].thread, NULL, work, &workers[n]))
            abort();
    }
    unsigned long calls[CALLS] = {0};
    for (int n = 0; n < threads; n++) {
        pthread_join(workers[n].thread, NULL);
        for (int call = 0; call < CALLS; call++)
            calls[call] += workers[n].calls[call];
    }
    for (int place = 0; place < PLACES; place++)
        free(places[place]);
    for (int call = 0; call < CALLS; call++)
        printf("%s %lu\n", names[call], calls[call]);
    return 0;
}
