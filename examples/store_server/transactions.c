/* The requests as transactions. A group is a function of its requests alone: it may run several times, and takes effect once. */
#include "engine.h"

#include <stdio.h>
#include <stdlib.h>
#include <sto_atomic.h>

static sto_store *store;
static sto_table table;
static sto_counter count; /* how many keys the table has: a table would go through all of them to tell it */
static int64_t room;

static const char *open_store(uint32_t keys, uint32_t threads)
{
    store = sto_store_new();
    if (!store) return sto_status_text(STO_NO_MEMORY);
    room = keys;
    table = sto_new_table(store, keys);
    count = sto_new_counter(store, 0);
    uint32_t status = sto_store_open(store, threads);
    return status ? sto_status_text(status) : NULL;
}

static answer get(sto_tx *tx, int64_t key)
{
    answer told = {.kind = IS_VALUE};
    if (!sto_table_get(tx, table, key, &told.value)) told.kind = IS_ABSENT;
    return told;
}

/* (Whether there is room is asked as a test, which an add to the counter disturbs only where it makes the other answer.) */
static answer set(sto_tx *tx, int64_t key, int64_t value, bool is_new)
{
    if (is_new && sto_counter_at_least(tx, count, room)) return (answer){.kind = IS_FULL};
    if (!sto_table_try_put(tx, table, key, value)) return (answer){.kind = IS_FULL};
    if (is_new) sto_counter_add(tx, count, 1);
    return (answer){.kind = IS_DONE};
}

static answer put(sto_tx *tx, int64_t key, int64_t value) { return set(tx, key, value, !sto_table_has(tx, table, key)); }

static answer take_out(sto_tx *tx, int64_t key)
{
    if (!sto_table_remove(tx, table, key)) return (answer){.kind = IS_ABSENT};
    sto_counter_add(tx, count, -1);
    return (answer){.kind = IS_DONE};
}

static answer add(sto_tx *tx, int64_t key, int64_t amount)
{
    int64_t sum = 0;
    bool is_new = !sto_table_get(tx, table, key, &sum);
    if (__builtin_add_overflow(sum, amount, &sum)) return (answer){.kind = IS_RANGE};
    answer told = set(tx, key, sum, is_new);
    return is_refusal(told) ? told : (answer){IS_VALUE, sum};
}

static answer transfer(sto_tx *tx, const request *r)
{
    int64_t has;
    if (!sto_table_get(tx, table, r->key, &has) || has < r->amount) return (answer){.kind = IS_SHORT};
    sto_table_put(tx, table, r->key, has - r->amount);
    answer told = add(tx, r->to, r->amount);
    return is_refusal(told) ? told : (answer){.kind = IS_DONE};
}

static answer answer_of(sto_tx *tx, const request *r)
{
    switch (r->operation) {
    case GET: return get(tx, r->key);
    case PUT: return put(tx, r->key, r->amount);
    case REMOVE: return take_out(tx, r->key);
    case ADD: return add(tx, r->key, r->amount);
    case TRANSFER: return transfer(tx, r);
    case COUNT: break;
    }
    return (answer){IS_VALUE, sto_counter_get(tx, count)};
}

typedef struct work {
    const group *group;
    outcome *told;
} work;

static sto_verdict do_group(sto_tx *tx, void *given)
{
    work *w = given;
    for (size_t i = 0; i < w->group->count && !sto_stopped(tx); i++) {
        w->told->answers[i] = answer_of(tx, &w->group->requests[i]);
        if (!is_refusal(w->told->answers[i])) continue;
        w->told->refused = i;
        return STO_CANCEL;
    }
    return STO_COMMIT;
}

static void run_transaction(const group *g, outcome *told)
{
    work w = {g, told};
    uint32_t status = sto_atomically(store, do_group, &w, NULL, &told->place);
    told->ending = status == STO_OK ? TOOK_EFFECT : status == STO_CANCELLED ? WAS_REFUSED : HAS_FAILED;
    if (told->ending == HAS_FAILED) told->reason = sto_status_text(status);
}

static bool close_store(void)
{
    sto_counts counts;
    sto_row *rows;
    size_t many;
    sto_stats(store, &counts, sizeof counts);
    uint32_t status = sto_store_close(store, &rows, &many);
    if (status) {
        fprintf(stderr, "the store cannot be closed: %s\n", sto_status_text(status));
        return false;
    }
    /* (the row of the counter is the first one, and each key has one) */
    bool is_counted = rows[0].value == (int64_t)many - 1;
    printf("%zu keys; %llu transactions took effect, %llu tries met others, %llu went on alone\n", many - 1, (unsigned long long)counts.commits,
           (unsigned long long)(counts.aborts_in_calls + counts.aborts_at_commit), (unsigned long long)counts.alone);
    if (!is_counted) fprintf(stderr, "the counter says %lld keys\n", (long long)rows[0].value);
    free(rows);
    return is_counted;
}

const engine transactions = {"transactions", open_store, run_transaction, close_store};
