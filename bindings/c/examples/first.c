#include <stdio.h>
#include <sto_atomic.h>

static sto_box alice, bob;

static sto_verdict pay(sto_tx *tx, void *given)
{
    int64_t amount = *(int64_t *)given, has = sto_box_get(tx, alice);
    if (has < amount) return STO_CANCEL;
    sto_box_set(tx, alice, has - amount);
    sto_box_set(tx, bob, sto_box_get(tx, bob) + amount);
    return STO_COMMIT;
}

int main(void)
{
    sto_store *store = sto_store_new();
    alice = sto_new_box(store, 100), bob = sto_new_box(store, 0);
    int64_t amount = 30;
    uint32_t status = sto_store_open(store, 4); /* four transactions at a time */
    if (!status) status = sto_atomically(store, pay, &amount, NULL, NULL); /* no policy, no place to be told */
    printf("%s, on the %s library\n", sto_status_text(status), sto_build());
    sto_store_free(store);
}
