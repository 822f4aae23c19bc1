/* malloc and free on the work of `stand`, of the library that LD_PRELOAD brings, and else of the C library: 256 bytes at a time in place of
   an item, and 64 in a replay, where the worker fills 1,000 slots and frees them, in turn. `malloc hold COUNT` tells how many bytes of memory
   each of so many blocks takes beyond its 256, with the pointer to it. */
#include "peer.h"
#include <unistd.h>

#define SIZE 256
#define HELD 64
#define SLOTS 1000

static uint64_t *made(size_t size, uint64_t value) {
    uint64_t *block = malloc(size);
    if (!block)
        abort();
    KEEP(block);
    *block = value;
    return block;
}

static void pair(int thread, long rounds) {
    (void)thread;
    for (long n = 0; n < rounds; n++)
        free(made(SIZE, n));
}

static void held(int thread, long rounds) {
    (void)thread;
    void *blocks[HELD];
    for (long n = 0; n < rounds / HELD; n++) {
        for (int k = 0; k < HELD; k++)
            blocks[k] = made(SIZE, k);
        for (int k = HELD; k-- > 0;)
            free(blocks[k]);
    }
}

static void replay(int thread, long rounds) {
    (void)thread;
    void *slots[SLOTS] = {0};
    for (long n = 0; n < rounds; n++) {
        void **slot = &slots[n % SLOTS];
        if (n / SLOTS % 2) {
            free(*slot);
            *slot = NULL;
        } else {
            *slot = made(64, n);
        }
    }
    for (int n = 0; n < SLOTS; n++)
        free(slots[n]);
}

/* Bytes of memory that the process has. */
static double resident(void) {
    long all = 0, pages = 0;
    FILE *told = fopen("/proc/self/statm", "r");
    if (!told || fscanf(told, "%ld %ld", &all, &pages) != 2)
        abort();
    fclose(told);
    return (double)pages * sysconf(_SC_PAGESIZE);
}

static int hold(long count) {
    for (int n = 0; n < 1000; n++)
        memset(made(SIZE, n), 1, SIZE);
    double before = resident();
    void **blocks = malloc(count * sizeof *blocks);
    for (long n = 0; n < count; n++) {
        blocks[n] = malloc(SIZE);
        memset(blocks[n], 1, SIZE);
    }
    KEEP(blocks);
    printf("%.1f bytes\n", (resident() - before) / count - SIZE);
    return 0;
}

int main(int words, char **word) {
    static const struct work works[] = {{"pair", NULL, pair, NULL}, {"held", NULL, held, NULL}, {"replay", NULL, replay, NULL}, {0}};
    return words == 3 && !strcmp(word[1], "hold") ? hold(atol(word[2])) : time_work(works, words, word);
}
