/* Random transactions on threads. Whatever commits is replayed, in the order of the places that the library tells, over a model that
 * shares nothing with it: each answer, and at the end each row, is to be the same.
 *
 *     fuzz run SEED SECONDS THREADS [ONE_OF]    many stores; with ONE_OF, one allocation of so many is refused
 *     fuzz refuse SEED                          one thread; each allocation is refused in turn
 */
#include <errno.h>
#include <pthread.h>
#include <sched.h>
#include <stdatomic.h>
#include <stdio.h>
#include <stdlib.h>
#include <string.h>
#include <time.h>

#include "model.h"

enum { THREADS_MOST = 8, CALLS_MOST = 6, TRANSACTIONS = 200 };

/* A transaction that took effect. */
typedef struct committed {
    uint64_t place;
    bool wrote;
    uint32_t count;
    sto_call calls[CALLS_MOST];
    answered answers[CALLS_MOST];
} committed;

typedef struct player {
    pthread_t thread;
    uint32_t random, count;
    sto_handle worker;
    committed *all;
    uint64_t aborted, refused, calls;
} player;

static sto_handle store;
static pthread_mutex_t store_lock = PTHREAD_MUTEX_INITIALIZER;
static uint64_t commits, aborts, refusals, calls, lost;
static uint32_t seed;

#define NEED(x) do { if (!(x)) { fprintf(stderr, "fuzz: %s:%d: %s, seed %u\n", __FILE__, __LINE__, #x, seed); exit(1); } } while (0)

/* Memory that is refused: the allocation of a number, or one of so many by chance. */

static atomic_long left = -1;
static atomic_uint one_of, chance = 1;
static atomic_bool is_refusing;

void *__real_malloc(size_t), *__real_calloc(size_t, size_t), *__real_realloc(void *, size_t), *__real_aligned_alloc(size_t, size_t);
int __real_posix_memalign(void **, size_t, size_t);

static bool is_refused(void)
{
    if (!is_refusing) return false;
    if (atomic_load(&left) >= 0) return atomic_fetch_sub(&left, 1) == 0;
    return one_of && (atomic_fetch_add(&chance, 2654435761u) >> 8) % one_of == 0;
}

void *__wrap_malloc(size_t n) { return is_refused() ? NULL : __real_malloc(n); }
void *__wrap_calloc(size_t n, size_t m) { return is_refused() ? NULL : __real_calloc(n, m); }
void *__wrap_realloc(void *p, size_t n) { return is_refused() ? NULL : __real_realloc(p, n); }
void *__wrap_aligned_alloc(size_t a, size_t n) { return is_refused() ? NULL : __real_aligned_alloc(a, n); }
int __wrap_posix_memalign(void **p, size_t a, size_t n) { return is_refused() ? ENOMEM : __real_posix_memalign(p, a, n); }

/* Random calls */

static uint32_t below(player *p, uint32_t n)
{
    p->random ^= p->random << 13;
    p->random ^= p->random >> 17;
    p->random ^= p->random << 5;
    return (p->random >> 4) % n;
}

static int64_t number(player *p)
{
    static const int64_t edges[] = {INT64_MIN, INT64_MIN + 1, -1, 0, 1, INT64_MAX - 1, INT64_MAX};
    return below(p, 16) ? (int64_t)below(p, 13) - 4 : edges[below(p, 7)];
}

static sto_call some_call(player *p)
{
    sto_call call = {.object = below(p, OBJECTS), .operation = below(p, STO_POP + 1), .a = number(p), .b = number(p)};
    for (int tries = 0; tries < 40 && !model_takes(call); tries++) call.operation = below(p, STO_POP + 1);
    if (call.operation == STO_TEST) call.a = below(p, 7);
    call.numbers = below(p, 64) ? model_wants(call) : below(p, 4);
    if (!below(p, 64)) call.object = below(p, 2) ? OBJECTS : UINT32_MAX;
    if (!below(p, 64)) call.operation = below(p, 2) ? STO_POP + 1 : 256 + below(p, 14);
    return call;
}

/* The transaction has ended by this status: it does not go on. */
static bool has_ended(player *p, uint32_t status)
{
    NEED(status == STO_ABORTED || (status == STO_NO_MEMORY && is_refusing));
    NEED(sto_cancel(&p->worker) == STO_NO_TRANSACTION);
    p->aborted += status == STO_ABORTED;
    p->refused += status == STO_NO_MEMORY;
    return false;
}

/* Walks a piece of a tree. Whether the transaction goes on. */
static bool walk(player *p, committed *c)
{
    sto_call call = {.object = FIRST_TREE + below(p, TREES), .operation = WALK, .a = number(p), .b = below(p, 6)};
    answered got;
    size_t count = KEYS_MOST;
    memset(&got, 0, sizeof got);
    uint32_t status = sto_walk(&p->worker, call.object, call.a, got.pairs, (size_t)call.b, &count);
    p->calls++;
    if (status) return has_ended(p, status);
    NEED(count <= (size_t)call.b);
    got.reply = (sto_reply){STO_PAIRS, 0, (int64_t)count};
    got.count = (uint32_t)count;
    c->calls[c->count] = call;
    c->answers[c->count++] = got;
    return true;
}

/* Asks a call that may be none. Whether the transaction goes on. */
static bool ask(player *p, committed *c)
{
    sto_call call = some_call(p);
    answered got;
    memset(&got, 0, sizeof got);
    got.reply.answer = 99;
    uint32_t status = sto_ask(&p->worker, &call, &got.reply);
    p->calls++;
    if (status && got.reply.answer != 99) NEED(!"a reply that is not STO_OK was written");
    if (call.object >= OBJECTS) NEED(status == STO_NO_OBJECT);
    if (status == STO_NO_OBJECT) return true;
    if (!model_takes(call)) NEED(status == STO_NO_CALL);
    if (status == STO_NO_CALL) NEED(!model_takes(call));
    if (status == STO_NO_CALL) return true;
    if (call.numbers != model_wants(call)) NEED(status == STO_BAD_NUMBERS);
    if (status == STO_BAD_NUMBERS) NEED(call.numbers != model_wants(call));
    if (status == STO_BAD_NUMBERS) return true;
    if (status) return has_ended(p, status);
    size_t count = 0;
    if (got.reply.answer == STO_PAIRS) {
        if (got.reply.value > 1) NEED(sto_pairs(&p->worker, got.pairs, 1, &count) == STO_NO_ROOM && count == (size_t)got.reply.value);
        NEED(sto_pairs(&p->worker, got.pairs, KEYS_MOST, &count) == STO_OK && count == (size_t)got.reply.value);
    }
    got.count = (uint32_t)count;
    c->wrote |= model_wrote(call, got.reply);
    c->calls[c->count] = call;
    c->answers[c->count++] = got;
    return true;
}

/* Makes one transaction, and notes it where it takes effect. */
static void transact(player *p)
{
    committed *c = &p->all[p->count];
    memset(c, 0, sizeof *c);
    uint32_t status = sto_begin(&p->worker), many = 1 + below(p, CALLS_MOST);
    if (status) {
        NEED(status == STO_NO_MEMORY && is_refusing);
        p->refused++;
        return;
    }
    bool goes_on = true;
    for (uint32_t i = 0; i < many && goes_on; i++) goes_on = below(p, 16) ? ask(p, c) : walk(p, c);
    if (!goes_on) return;
    if (!below(p, 12)) {
        NEED(sto_cancel(&p->worker) == STO_OK);
        return;
    }
    status = sto_commit(&p->worker, &c->place);
    NEED(status == STO_OK || status == STO_ABORTED || (status == STO_NO_MEMORY && is_refusing));
    p->count += status == STO_OK;
    p->aborted += status == STO_ABORTED;
    p->refused += status == STO_NO_MEMORY;
}

/* A whole transaction at once, of calls that the objects take. */
static void run_whole(player *p)
{
    committed *c = &p->all[p->count];
    sto_reply replies[CALLS_MOST];
    memset(c, 0, sizeof *c);
    while (c->count < 1 + below(p, CALLS_MOST)) {
        sto_call call = some_call(p);
        bool is_lawful = call.object < OBJECTS && model_takes(call) && call.numbers == model_wants(call);
        if (is_lawful && call.operation != STO_SCAN) c->calls[c->count++] = call;
    }
    uint32_t status = sto_run(&p->worker, c->calls, c->count, replies, CALLS_MOST, &c->place);
    NEED(status == STO_OK || status == STO_BUSY || (status == STO_NO_MEMORY && is_refusing));
    for (uint32_t i = 0; i < c->count && !status; i++) {
        c->answers[i].reply = replies[i];
        c->wrote |= model_wrote(c->calls[i], replies[i]);
    }
    p->count += status == STO_OK;
    p->refused += status == STO_NO_MEMORY;
}

/* Gives the worker back, and takes one. */
static void change_worker(player *p)
{
    uint32_t status;
    while ((status = sto_give_back(&p->worker)) == STO_BUSY) sched_yield();
    NEED(status == STO_OK || (status == STO_NO_MEMORY && is_refusing));
    while (!p->worker.full) {
        pthread_mutex_lock(&store_lock);
        status = sto_worker(&store, &p->worker);
        pthread_mutex_unlock(&store_lock);
        NEED(status == STO_OK || status == STO_NO_WORKER || (status == STO_NO_MEMORY && is_refusing));
        if (status) sched_yield();
    }
}

static void *play(void *given)
{
    player *p = given;
    for (int i = 0; i < TRANSACTIONS; i++) {
        if (below(p, 5)) transact(p);
        else run_whole(p);
        if (!below(p, 40)) change_worker(p);
    }
    return NULL;
}

/* Replaying */

static bool is_same(const answered *got, const answered *want)
{
    return got->reply.answer == want->reply.answer && got->reply.value == want->reply.value && got->count == want->count &&
           !memcmp(got->pairs, want->pairs, got->count * sizeof *got->pairs);
}

/* Whether a transaction is as it was told, after those that the model has made. */
static bool replays(model *m, const committed *c)
{
    model tried = *m;
    bool is = true;
    for (uint32_t i = 0; i < c->count && is; i++) {
        answered want = model_ask(&tried, c->calls[i]);
        is = is_same(&c->answers[i], &want);
    }
    if (is) *m = tried;
    return is;
}

static int by_place(const void *one, const void *other)
{
    const committed *x = *(committed *const *)one, *y = *(committed *const *)other;
    if (x->place != y->place) return x->place < y->place ? -1 : 1;
    return (int)y->wrote - (int)x->wrote;
}

/* Replays all. Of those with one place a writer comes first: that which drew it. Others may have written what changed nothing. */
static model replay(committed **all, size_t count)
{
    model m = model_new();
    for (size_t at = 0; at < count; at++) {
        size_t other = at;
        while (!replays(&m, all[other])) {
            other++;
            NEED(other < count && all[other]->place == all[at]->place && all[other]->wrote);
        }
        committed *first = all[other];
        all[other] = all[at];
        all[at] = first;
    }
    return m;
}

static void see_rows(const model *m)
{
    sto_row rows[OBJECTS * KEYS_MOST];
    size_t count = 0, at = 0;
    NEED(sto_rows(&store, rows, OBJECTS * KEYS_MOST, &count) == STO_OK);
    for (uint32_t o = 0; o < OBJECTS; o++) {
        const content *c = &m->objects[o];
        for (uint32_t i = 0; i < c->count; i++, at++)
            NEED(at < count && rows[at].object == o && rows[at].key == c->pairs[i].key && rows[at].value == c->pairs[i].value);
    }
    NEED(at == count);
}

/* One store */

static bool open_store(player *players, uint32_t threads)
{
    uint32_t status = sto_open(&store, shapes, OBJECTS, threads);
    for (uint32_t i = 0; i < threads && !status; i++) status = sto_worker(&store, &players[i].worker);
    if (!status) return true;
    NEED(status == STO_NO_MEMORY && is_refusing);
    refusals++;
    for (uint32_t i = 0; i < threads; i++) sto_free(&players[i].worker);
    sto_free(&store);
    return false;
}

/* Closes the store, and answers whether its rows are there: it may be lost for want of memory. */
static bool close_store(player *players, uint32_t threads)
{
    uint32_t status;
    for (uint32_t i = 0; i < threads; i++) NEED(sto_give_back(&players[i].worker) == STO_OK);
    while ((status = sto_close(&store)) != STO_OK && store.full) {
        NEED(status == STO_NO_MEMORY && is_refusing);
        refusals++;
    }
    lost += status != STO_OK;
    if (status) NEED(status == STO_NO_MEMORY && is_refusing);
    return status == STO_OK;
}

static void see(player *players, uint32_t threads, bool has_rows)
{
    committed **all = calloc(threads * TRANSACTIONS, sizeof *all);
    size_t count = 0;
    for (uint32_t i = 0; i < threads; i++) {
        for (uint32_t j = 0; j < players[i].count; j++) all[count++] = &players[i].all[j];
        aborts += players[i].aborted;
        refusals += players[i].refused;
        calls += players[i].calls;
    }
    qsort(all, count, sizeof *all, by_place);
    model m = replay(all, count);
    if (has_rows) see_rows(&m);
    commits += count;
    free(all);
}

static void one_store(uint32_t threads)
{
    static player players[THREADS_MOST];
    memset(players, 0, sizeof players);
    for (uint32_t i = 0; i < threads; i++) {
        players[i].all = calloc(TRANSACTIONS + 1, sizeof *players[i].all);
        players[i].random = (seed * 64 + i) * 2654435761u | 1;
    }
    is_refusing = atomic_load(&left) >= 0 || one_of;
    if (open_store(players, threads)) {
        for (uint32_t i = 1; i < threads; i++) NEED(!pthread_create(&players[i].thread, NULL, play, &players[i]));
        play(&players[0]);
        for (uint32_t i = 1; i < threads; i++) pthread_join(players[i].thread, NULL);
        bool has_rows = close_store(players, threads);
        is_refusing = false;
        see(players, threads, has_rows);
        sto_free(&store);
    }
    is_refusing = false;
    for (uint32_t i = 0; i < threads; i++) free(players[i].all);
}

static void tell(const char *what, uint64_t stores)
{
    printf("fuzz %s: %llu stores, %llu calls, %llu commits, %llu aborts, %llu allocations refused, %llu stores lost at their close: all is well\n", what,
           (unsigned long long)stores, (unsigned long long)calls, (unsigned long long)commits, (unsigned long long)aborts,
           (unsigned long long)refusals, (unsigned long long)lost);
}

int main(int argc, char **argv)
{
    bool runs = argc >= 5 && !strcmp(argv[1], "run"), refuses = argc == 3 && !strcmp(argv[1], "refuse");
    uint32_t threads = runs ? (uint32_t)atoi(argv[4]) : 1;
    uint64_t stores = 0;
    if ((!runs && !refuses) || threads < 1 || threads > THREADS_MOST) {
        fprintf(stderr, "usage: fuzz run SEED SECONDS THREADS [ONE_OF], or fuzz refuse SEED\n");
        return 2;
    }
    seed = (uint32_t)atoi(argv[2]);
    if (runs) {
        time_t end = time(NULL) + atoi(argv[3]);
        one_of = argc > 5 ? (uint32_t)atoi(argv[5]) : 0;
        for (; time(NULL) < end; stores++, seed++) one_store(threads);
    } else {
        long n = 0;
        do {
            atomic_store(&left, n++);
            one_store(1);
            stores++;
        } while (atomic_load(&left) < 0);
    }
    tell(argv[1], stores);
    return commits == 0;
}
