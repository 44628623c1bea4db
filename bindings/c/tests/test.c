/* The door's tests: test [THREADS [ROUNDS]] */
#include <pthread.h>
#include <sched.h>
#include <stdio.h>
#include <stdlib.h>
#include <string.h>
#include <sto_atomic.h>
#include <sys/wait.h>
#include <unistd.h>

#define NEED(x) do { if (!(x)) { fprintf(stderr, "%s:%d: %s\n", __FILE__, __LINE__, #x); exit(1); } } while (0)
#define BOXES 16

static sto_store *store;
static sto_box boxes[BOXES], foreign;
static sto_counter moves, top;
static sto_array row;
static sto_table table, few;
static sto_tree tree;
static sto_vector queue;
static uint32_t rounds = 2000;
static unsigned many = 4;

static uint32_t next(uint32_t *x)
{
    *x ^= *x << 13;
    *x ^= *x >> 17;
    return *x ^= *x << 5;
}

/* Objects in an order that is none of sto.h. */
static void make(uint32_t workers)
{
    store = sto_store_new();
    queue = sto_new_vector(store, 4);
    for (int i = 0; i < BOXES; i++) boxes[i] = sto_new_box(store, 100);
    tree = sto_new_tree(store, 64);
    moves = sto_new_counter(store, 0);
    table = sto_new_table(store, 4096);
    top = sto_new_counter(store, INT64_MAX);
    few = sto_new_table(store, 1);
    row = sto_new_array(store, 3, 7);
    NEED(sto_store_open(store, workers) == STO_OK);
    NEED(sto_store_open(store, workers) == STO_IS_OPEN);
}

static void on_threads(void *(*code)(void *), unsigned n)
{
    pthread_t threads[64];
    for (unsigned i = 0; i < n; i++) NEED(!pthread_create(&threads[i], NULL, code, (void *)(uintptr_t)i));
    for (unsigned i = 0; i < n; i++) pthread_join(threads[i], NULL);
}

/* Transfers, with audits between them */

typedef struct move { int from, to; int64_t sum; } move;

static sto_verdict transfer(sto_tx *tx, void *given)
{
    move *m = given;
    sto_box_set(tx, boxes[m->from], sto_box_get(tx, boxes[m->from]) - 1);
    sto_box_set(tx, boxes[m->to], sto_box_get(tx, boxes[m->to]) + 1);
    sto_counter_add(tx, moves, 1);
    return STO_COMMIT;
}

static sto_verdict audit(sto_tx *tx, void *given)
{
    move *m = given;
    m->sum = 0;
    for (int i = 0; i < BOXES; i++) {
        m->sum += sto_box_get(tx, boxes[i]);
        sched_yield();
    }
    return STO_COMMIT;
}

static void *mover(void *given)
{
    uint32_t x = (uint32_t)(uintptr_t)given + 1;
    sto_policy policy = {.tries = 3};
    for (uint32_t i = 0; i < rounds; i++) {
        move m = {(int)(next(&x) % BOXES), (int)(next(&x) % BOXES), 0};
        NEED(sto_atomically(store, transfer, &m, NULL, NULL) == STO_OK);
        if (i % 100) continue;
        NEED(sto_atomically(store, audit, &m, &policy, NULL) == STO_OK);
        NEED(m.sum == BOXES * 100);
    }
    return NULL;
}

static void test_transfers(void)
{
    sto_counts counts;
    sto_row *rows;
    size_t count;
    int64_t sum = 0;
    make(3);
    on_threads(mover, many);
    sto_stats(store, &counts, sizeof counts);
    NEED(counts.commits == many * (rounds + (rounds + 99) / 100) && counts.given_up == 0);
    NEED(counts.tries == counts.commits + counts.aborts_in_calls + counts.aborts_at_commit);
    printf("%u threads: %llu commits, %llu aborts, %llu alone\n", many, (unsigned long long)counts.commits,
           (unsigned long long)(counts.aborts_in_calls + counts.aborts_at_commit), (unsigned long long)counts.alone);
    NEED(sto_store_close(store, &rows, &count) == STO_OK);
    for (int i = 0; i < BOXES; i++) sum += rows[i].value;
    NEED(sum == BOXES * 100 && rows[BOXES].value == (int64_t)many * rounds);
    free(rows);
}

/* Waiting: more threads than workers, on a queue that is full or empty most of the time */

static sto_verdict push(sto_tx *tx, void *given) { return sto_vector_try_push(tx, queue, *(int64_t *)given) ? STO_COMMIT : STO_RETRY; }
static sto_verdict pop(sto_tx *tx, void *given) { return sto_vector_pop(tx, queue, given) ? STO_COMMIT : STO_RETRY; }
static _Atomic int64_t pushed, popped;

static void *pusher_or_popper(void *given)
{
    int pushes = (uintptr_t)given % 2;
    for (int64_t i = 1; i <= 200; i++) {
        int64_t value = i;
        NEED(sto_atomically(store, pushes ? push : pop, &value, NULL, NULL) == STO_OK);
        *(pushes ? &pushed : &popped) += value;
    }
    return NULL;
}

static sto_verdict never(sto_tx *tx, void *given)
{
    (void)tx;
    (void)given;
    return STO_RETRY;
}

static void test_waiting(void)
{
    pushed = popped = 0;
    on_threads(pusher_or_popper, 8);
    NEED(pushed == popped && pushed == 4 * 201 * 100);
    sto_policy soon = {.nanoseconds = 5000000}, no_end = {.nanoseconds = UINT64_MAX};
    int64_t value = 1;
    NEED(sto_atomically(store, never, NULL, &soon, NULL) == STO_TIMEOUT);
    NEED(sto_atomically(store, push, &value, &no_end, NULL) == STO_OK);
    NEED(sto_atomically(store, pop, &value, &no_end, NULL) == STO_OK);
}

static _Atomic int attempts;

static sto_verdict pop_counted(sto_tx *tx, void *given)
{
    attempts++;
    return pop(tx, given);
}

static void *waiter(void *given)
{
    NEED(sto_atomically(store, pop_counted, given, NULL, NULL) == STO_OK);
    return NULL;
}

/* A store in which a thread waits is in use, though no worker is taken. */
static void test_closing_beside_a_waiter(void)
{
    pthread_t thread;
    sto_row *rows;
    size_t count;
    int64_t got = 0, value = 7;
    NEED(!pthread_create(&thread, NULL, waiter, &got));
    while (attempts < 2) sched_yield();
    NEED(sto_store_close(store, &rows, &count) == STO_IN_USE);
    NEED(sto_atomically(store, push, &value, NULL, NULL) == STO_OK);
    NEED(!pthread_join(thread, NULL) && got == 7);
}

/* What is refused, by its name */

static sto_verdict nested(sto_tx *tx, void *given)
{
    (void)tx;
    *(uint32_t *)given = sto_atomically(store, pop, given, NULL, NULL);
    return STO_CANCEL;
}

static sto_verdict overflow(sto_tx *tx, void *given)
{
    (void)given;
    sto_box_set(tx, boxes[0], 5);
    sto_counter_add(tx, top, 1);
    NEED(sto_stopped(tx) && sto_box_get(tx, boxes[0]) == 0);
    return STO_COMMIT;
}

static sto_verdict outside(sto_tx *tx, void *given)
{
    (void)given;
    sto_array_set(tx, row, 3, 1);
    return STO_COMMIT;
}

static sto_verdict fill_few(sto_tx *tx, void *given)
{
    (void)given;
    for (int i = 0; i < 17; i++) sto_table_put(tx, few, i, i);
    return STO_COMMIT;
}

static sto_verdict set_foreign(sto_tx *tx, void *given)
{
    (void)given;
    sto_box_set(tx, foreign, 1);
    return STO_COMMIT;
}

static void *set_of_other_thread(void *tx)
{
    sto_box_set(tx, boxes[0], 1);
    return NULL;
}

static sto_verdict lend(sto_tx *tx, void *given)
{
    pthread_t thread;
    NEED(!pthread_create(&thread, NULL, set_of_other_thread, tx));
    pthread_join(thread, NULL);
    *(sto_tx **)given = tx;
    return STO_COMMIT;
}

static void test_refusals(void)
{
    uint32_t inner = 0;
    sto_tx *stale = NULL;
    NEED(sto_atomically(store, nested, &inner, NULL, NULL) == STO_CANCELLED && inner == STO_NESTED);
    NEED(sto_atomically(store, overflow, NULL, NULL, NULL) == STO_OUT_OF_RANGE);
    NEED(sto_atomically(store, outside, NULL, NULL, NULL) == STO_NO_PLACE);
    NEED(sto_atomically(store, fill_few, NULL, NULL, NULL) == STO_IS_FULL);
    NEED(sto_atomically(store, lend, &stale, NULL, NULL) == STO_OTHER_THREAD);
    sto_box_set(stale, boxes[0], 1);
    NEED(sto_stopped(stale));
    sto_store *second = sto_store_new();
    foreign = sto_new_box(second, 0);
    NEED(sto_atomically(second, never, NULL, NULL, NULL) == STO_NOT_OPEN);
    NEED(sto_store_open(second, 0) == STO_BAD_WORKERS && sto_store_open(second, 1) == STO_OK);
    NEED(sto_atomically(store, set_foreign, NULL, NULL, NULL) == STO_OTHER_STORE);
    foreign = sto_new_box(second, 0);
    NEED(sto_atomically(second, set_foreign, NULL, NULL, NULL) == STO_OTHER_STORE);
    sto_store_free(second);
}

static void test_fork(void)
{
    int ended = 1;
    fflush(stdout);
    pid_t child = fork();
    if (child == 0) {
        sto_row *rows;
        size_t count;
        _exit(sto_atomically(store, never, NULL, NULL, NULL) != STO_FORKED || sto_store_close(store, &rows, &count) != STO_FORKED);
    }
    NEED(child > 0 && waitpid(child, &ended, 0) == child && ended == 0);
}

/* Every call, and the rows of a store that was closed */

static sto_verdict fill(sto_tx *tx, void *given)
{
    sto_table_put(tx, table, *(int64_t *)given * 64, *(int64_t *)given);
    return STO_COMMIT;
}

static sto_verdict look(sto_tx *tx, void *given)
{
    int64_t v = -1;
    sto_pair pairs[4];
    NEED(sto_table_get(tx, table, 64, &v) && v == 1 && !sto_table_get(tx, table, 63, &v) && v == 1);
    NEED(sto_table_has(tx, table, 128) && sto_table_remove(tx, table, 128) && !sto_table_remove(tx, table, 128));
    NEED(sto_table_len(tx, few) == 0 && sto_tree_len(tx, tree) == 0 && !sto_tree_remove(tx, tree, 1));
    for (int i = 0; i < 4; i++) sto_tree_put(tx, tree, 3 - i, i);
    NEED(sto_tree_scan(tx, tree, INT64_MIN, INT64_MAX, pairs, 3) == 4 && sto_tree_len(tx, tree) == 4);
    NEED(sto_tree_scan(tx, tree, 1, 2, pairs, 4) == 2 && pairs[0].key == 1 && pairs[0].value == 2);
    NEED(sto_tree_next(tx, tree, 2, &v) && v == 2 && !sto_tree_next(tx, tree, 4, &v) && sto_tree_count(tx, tree, 0, 9) == 4);
    NEED(sto_tree_walk(tx, tree, 1, pairs, 2) == 2 && pairs[0].key == 1 && pairs[1].key == 2 && pairs[1].value == 1);
    NEED(sto_tree_walk(tx, tree, 3, pairs, 2) == 1 && pairs[0].key == 3 && sto_tree_walk(tx, tree, 4, pairs, 2) == 0);
    NEED(sto_tree_get(tx, tree, 3, &v) && v == 0 && sto_counter_get(tx, moves) == 0);
    NEED(sto_array_get(tx, row, 2) == 7 && sto_counter_at_least(tx, top, 1) && !sto_counter_take(tx, moves, INT64_MAX));
    sto_array_add(tx, row, 2, 5);
    sto_vector_push(tx, queue, 9);
    NEED(sto_array_get(tx, row, 2) == 12 && sto_vector_get(tx, queue, 0, &v) && v == 9 && sto_vector_len(tx, queue) == 1);
    *(int *)given = sto_stopped(tx);
    return STO_COMMIT;
}

static void test_calls(void)
{
    int stopped = 1;
    uint64_t place = 0;
    sto_row *rows;
    size_t count;
    int64_t keys = 0;
    for (int64_t i = 0; i < 4096; i++) NEED(sto_atomically(store, fill, &i, NULL, NULL) == STO_OK);
    NEED(sto_atomically(store, look, &stopped, NULL, &place) == STO_OK && !stopped && place > 4096);
    NEED(sto_store_close(store, &rows, &count) == STO_OK);
    NEED(rows[0].value == 100 && count == BOXES + 2 + 3 + 4095 + 4 + 1);
    for (size_t i = 21; i < 21 + 4095; i++) keys += rows[i].key == rows[i].value * 64;
    NEED(keys == 4095 && rows[count - 1].value == 9);
    free(rows);
}

int main(int argc, char **argv)
{
    if (argc > 1) many = (unsigned)atoi(argv[1]);
    if (argc > 2) rounds = (uint32_t)atoi(argv[2]);
    NEED(many >= 1 && many <= 64);
    test_transfers();
    make(2);
    test_waiting();
    test_closing_beside_a_waiter();
    test_refusals();
    test_fork();
    test_calls();
    NEED(!strcmp(sto_status_text(STO_ABORTED), "the transaction met another one") && sto_version() == STO_VERSION_NUMBER);
    NEED(!strcmp(sto_version_text(), STO_VERSION));
    NEED(!strcmp(sto_build(), "plain") || !strcmp(sto_build(), "proved"));
    printf("the door, on the %s library: all is well\n", sto_build());
    return 0;
}
