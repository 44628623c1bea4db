/* Two threads: one pays in, the other waits until there is enough. */
#include <pthread.h>
#include <stdio.h>
#include <sto_atomic.h>

static sto_store *store;
static sto_box alice, bob;

static sto_verdict pay_in(sto_tx *tx, void *given)
{
    sto_box_set(tx, alice, sto_box_get(tx, alice) + *(int64_t *)given);
    return STO_COMMIT;
}

static sto_verdict move(sto_tx *tx, void *given)
{
    (void)given;
    int64_t has = sto_box_get(tx, alice);
    if (has < 30) return STO_RETRY;
    sto_box_set(tx, alice, has - 30);
    sto_box_set(tx, bob, sto_box_get(tx, bob) + 30);
    return STO_COMMIT;
}

static void *mover(void *given)
{
    uint32_t status = sto_atomically(store, move, given, NULL, NULL);
    printf("moved: %s\n", sto_status_text(status));
    return NULL;
}

int main(void)
{
    store = sto_store_new();
    alice = sto_new_box(store, 0);
    bob = sto_new_box(store, 0);
    if (sto_store_open(store, 4)) return 1;
    pthread_t thread;
    pthread_create(&thread, NULL, mover, NULL);
    int64_t amount = 40;
    sto_atomically(store, pay_in, &amount, NULL, NULL);
    pthread_join(thread, NULL);
    sto_row *rows;
    size_t count;
    if (sto_store_close(store, &rows, &count)) return 1;
    return 0;
}
