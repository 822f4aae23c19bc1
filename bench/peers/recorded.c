/* malloc and free on the lines of a trace that tools/trace-of made, which comes on standard input. As in a replay each worker has a thread in
   each round, and `give` lines are done between. bench/replay/round.c tells the time. Nothing of it is proved. */
#include <pthread.h>
#include <stdint.h>
#include <stdio.h>
#include <stdlib.h>
#include <string.h>

#define MOST_WORKERS 16
#define MOST_ZONES 16
#define SLOTS 65536
#define GIVES MOST_WORKERS

/* A request has a size, a free none; a give has the taker and its slot. */
struct op {
    unsigned size, slot, worker, taker, other;
};

struct list {
    struct op *ops;
    size_t count, done, *ends;
};

static struct list lists[MOST_WORKERS + 1];
static void *slots[MOST_WORKERS][SLOTS];
static size_t rounds, now;

static void *grown(void *old, size_t count, size_t size) {
    /* Each power of two doubles the room. */
    if (count & (count - 1))
        return old;
    void *more = realloc(old, (count ? 2 * count : 1) * size);
    if (!more)
        abort();
    return more;
}

static void add(unsigned list, struct op op) {
    struct list *to = &lists[list];
    to->ops = grown(to->ops, to->count, sizeof op);
    to->ops[to->count++] = op;
}

static void end_round(void) {
    for (int n = 0; n <= MOST_WORKERS; n++) {
        lists[n].ends = grown(lists[n].ends, rounds, sizeof(size_t));
        lists[n].ends[rounds] = lists[n].count;
    }
    rounds++;
}

/* The gives behind a `round` line belong to the round before. */
static unsigned read_trace(void) {
    static char line[256], zone[MOST_ZONES][32], name[32];
    unsigned size[MOST_ZONES], zones = 0, workers = 0, open = 0;
    while (fgets(line, sizeof line, stdin)) {
        struct op op = {0};
        int gives = sscanf(line, "give %u %u %u %u", &op.worker, &op.slot, &op.taker, &op.other) == 4;
        if (open && !gives) {
            end_round();
            open = 0;
        }
        if (gives) {
            add(GIVES, op);
        } else if (sscanf(line, "alloc %u %31s %u", &op.worker, name, &op.slot) == 3) {
            unsigned at = 0;
            while (at + 1 < zones && strcmp(zone[at], name))
                at++;
            op.size = size[at];
            add(op.worker, op);
        } else if (sscanf(line, "free %u %u", &op.worker, &op.slot) == 2) {
            add(op.worker, op);
        } else if (!strncmp(line, "round", 5)) {
            open = 1;
        } else if (zones < MOST_ZONES && sscanf(line, "zone %31s %u", zone[zones], &size[zones]) == 2) {
            zones++;
        } else {
            sscanf(line, "workers %u", &workers);
        }
    }
    end_round();
    return workers;
}

static void *work(void *given) {
    struct list *list = given;
    void **own = slots[list - lists];
    for (; list->done < list->ends[now]; list->done++) {
        struct op *op = &list->ops[list->done];
        if (op->size) {
            uint64_t *block = own[op->slot] = malloc(op->size);
            if (!block)
                abort();
            *block = list->done;
        } else {
            free(own[op->slot]);
        }
    }
    return NULL;
}

static void give(void) {
    for (struct list *list = &lists[GIVES]; list->done < list->ends[now]; list->done++) {
        struct op *op = &list->ops[list->done];
        slots[op->taker][op->other] = slots[op->worker][op->slot];
    }
}

int main(void) {
    unsigned workers = read_trace();
    pthread_t threads[MOST_WORKERS];
    if (workers > MOST_WORKERS)
        return 2;
    for (now = 0; now < rounds; now++) {
        for (unsigned n = 0; n < workers; n++)
            pthread_create(&threads[n], NULL, work, &lists[n]);
        for (unsigned n = 0; n < workers; n++)
            pthread_join(threads[n], NULL);
        give();
    }
    return 0;
}
