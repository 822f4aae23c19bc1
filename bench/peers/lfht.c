/* liburcu on the work of `stand`: a look in its lock-free hash table within a section. */
#define _LGPL_SOURCE
#define RCU_MEMBARRIER
#include "peer.h"
#include <urcu.h>
#include <urcu/rculfhash.h>

struct name {
    struct cds_lfht_node node;
    uint64_t key, value;
};

static struct cds_lfht *table;

static uint64_t hash_of(uint64_t key) {
    key ^= key >> 33;
    key *= 0xff51afd7ed558ccdull;
    key ^= key >> 33;
    key *= 0xc4ceb9fe1a85ec53ull;
    return key ^ key >> 33;
}

static int is_of(struct cds_lfht_node *node, const void *key) { return caa_container_of(node, struct name, node)->key == *(const uint64_t *)key; }

static void enter(int thread) {
    (void)thread;
    rcu_register_thread();
}

static void leave(int thread) {
    (void)thread;
    rcu_unregister_thread();
}

static void look(int thread, long rounds) {
    long found = 0;
    for (long n = 0; n < rounds; n++) {
        uint64_t key = name_of(n, thread);
        struct cds_lfht_iter at;
        rcu_read_lock();
        cds_lfht_lookup(table, hash_of(key), is_of, &key, &at);
        struct cds_lfht_node *node = cds_lfht_iter_get_node(&at);
        if (node) {
            KEEP(caa_container_of(node, struct name, node)->value);
            found++;
        }
        rcu_read_unlock();
    }
    if (found != rounds)
        abort();
}

static void bind_all(void) {
    rcu_register_thread();
    table = cds_lfht_new(NAMES, NAMES, NAMES, 0, NULL);
    for (uint64_t key = 0; key < NAMES; key++) {
        struct name *name = malloc(sizeof *name);
        if (!name)
            abort();
        cds_lfht_node_init(&name->node);
        name->key = name->value = key;
        rcu_read_lock();
        cds_lfht_add(table, hash_of(key), &name->node);
        rcu_read_unlock();
    }
    rcu_unregister_thread();
}

int main(int words, char **word) {
    static const struct work works[] = {{"look", enter, look, leave}, {0}};
    bind_all();
    return time_work(works, words, word);
}
