/* Concurrency Kit on the work of `stand`: ck_epoch, and a look in ck_ht within a section. A round of `cycle` allocates 256 bytes and has them
   freed once no section may see them; each 64th polls. */
#include "peer.h"
#include <ck_epoch.h>
#include <ck_ht.h>
#include <ck_malloc.h>

static ck_epoch_t epoch;
static ck_epoch_record_t *records[MOST_THREADS];

static void enter(int thread) {
    void *made;
    if (posix_memalign(&made, 128, sizeof(ck_epoch_record_t)))
        abort();
    records[thread] = made;
    ck_epoch_register(&epoch, made, NULL);
}

static void leave(int thread) {
    ck_epoch_barrier(records[thread]);
    ck_epoch_unregister(records[thread]);
}

static void section(int thread, long rounds) {
    ck_epoch_record_t *record = records[thread];
    for (long n = 0; n < rounds; n++) {
        ck_epoch_begin(record, NULL);
        KEEP(n);
        ck_epoch_end(record, NULL);
    }
}

struct node {
    ck_epoch_entry_t entry;
    uint64_t value;
    uint64_t rest[29];
};

CK_EPOCH_CONTAINER(struct node, entry, node_of)

static void free_node(ck_epoch_entry_t *entry) { free(node_of(entry)); }

static void cycle(int thread, long rounds) {
    ck_epoch_record_t *record = records[thread];
    for (long n = 0; n < rounds; n++) {
        struct node *node = malloc(sizeof *node);
        if (!node)
            abort();
        node->value = n;
        KEEP(node);
        ck_epoch_call(record, &node->entry, free_node);
        if (n % 64 == 63)
            ck_epoch_poll(record);
    }
}

static ck_ht_t table;

static void look(int thread, long rounds) {
    ck_epoch_record_t *record = records[thread];
    long found = 0;
    for (long n = 0; n < rounds; n++) {
        uint64_t key = name_of(n, thread) + 1; /* 0 is no key here */
        ck_ht_hash_t hash;
        ck_ht_entry_t entry;
        ck_epoch_begin(record, NULL);
        ck_ht_hash_direct(&hash, &table, key);
        ck_ht_entry_key_set_direct(&entry, key);
        if (ck_ht_get_spmc(&table, hash, &entry)) {
            KEEP(ck_ht_entry_value_direct(&entry));
            found++;
        }
        ck_epoch_end(record, NULL);
    }
    if (found != rounds)
        abort();
}

static void *table_malloc(size_t size) { return malloc(size); }

static void table_free(void *block, size_t size, bool deferred) {
    (void)size, (void)deferred;
    free(block);
}

static void bind_all(void) {
    static struct ck_malloc memory = {.malloc = table_malloc, .free = table_free};
    if (!ck_ht_init(&table, CK_HT_MODE_DIRECT, NULL, &memory, NAMES * 2, 6602834))
        abort();
    for (uintptr_t key = 1; key <= NAMES; key++) {
        ck_ht_hash_t hash;
        ck_ht_entry_t entry;
        ck_ht_hash_direct(&hash, &table, key);
        ck_ht_entry_set_direct(&entry, hash, key, key);
        if (!ck_ht_put_spmc(&table, hash, &entry))
            abort();
    }
}

int main(int words, char **word) {
    static const struct work works[] = {{"section", enter, section, leave}, {"cycle", enter, cycle, leave}, {"look", enter, look, leave}, {0}};
    ck_epoch_init(&epoch);
    bind_all();
    return time_work(works, words, word);
}
