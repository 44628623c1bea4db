/* The door that owns the loop of tries: see sto_atomic.h. To be compiled with -fexceptions, so that a C++ exception that passes
 * through gives the worker back. */
#define _GNU_SOURCE
#include "sto_atomic.h"

#include <pthread.h>
#include <sched.h>
#include <stdatomic.h>
#include <stdlib.h>
#include <string.h>
#include <time.h>

#define KINDS 6
#define LINE 128          /* bytes that threads share or not, so that workers side by side do not slow one another */
#define WORKERS_MOST 65536
#define TRIES 16
#define NO_INDEX UINT32_MAX
#define WAITS UINT32_MAX  /* how a try ends by STO_RETRY: no status */
#define SECOND 1000000000u

typedef _Atomic uint64_t count64;

/* A transaction under way. */
struct sto_tx {
    sto_store *store;
    sto_handle *worker;
    const void *thread;       /* an address that no other living thread has */
    _Atomic uint32_t stopped; /* the status by which it stopped, or 0 */
    bool wrote;
};

/* A worker. The thread that turned `taken` from false to true has the rest, until it turns it back. */
typedef struct slot {
    _Alignas(LINE) atomic_bool taken;
    sto_handle worker;
    sto_tx tx;
    struct { count64 commits, tries, aborts_in_calls, aborts_at_commit, retries, given_up, alone; } counts;
} slot;

typedef struct shape_list {
    sto_shape *shapes;
    uint32_t count, room;
} shape_list;

struct sto_store {
    uint32_t id, forks;
    bool is_open, lacks_memory, is_closed;
    shape_list declared[KINDS];
    uint32_t bases[KINDS];    /* the number of the first object of each kind */
    sto_handle store;
    slot *slots;
    uint32_t workers;
    atomic_uint waiting;      /* how many transactions wait for a change: only then a commit tells of itself */
    atomic_uint hungry;       /* how many threads wait for a worker */
    atomic_bool has_alone;    /* whether a transaction runs alone: then no other try begins */
    uint64_t changes;
    pthread_mutex_t changes_lock, free_lock, alone_lock;
    pthread_cond_t changed, freed;
};

static _Thread_local bool is_inside;
static _Thread_local uint32_t thread_number;
static atomic_uint threads, stores, forks;
static pthread_once_t forks_counted = PTHREAD_ONCE_INIT;

static void count_fork(void) { atomic_fetch_add(&forks, 1); }

static void count_forks(void) { pthread_atfork(NULL, NULL, count_fork); }

const char *sto_status_text(uint32_t status)
{
    static const char *const of_library[] = {"done", "memory was wanting", "the handle holds nothing",
        "the handle to be filled holds something", "the handle holds something else", "no object has this number",
        "the object does not take this call", "the worker is in a transaction", "the worker is in no transaction",
        "the transaction met another one", "busy: each try met another transaction", "the worker has begun 2^40 transactions",
        "no worker rests in the store", "a store has from 1 to 65536 workers", "no such kind of object", "objects out of order",
        "an object has no room, or is too large", "the objects have 2^32 parts or more", "too little room for the answer",
        "workers are out", "the operation wants another number of numbers of this object"};
    static const char *const of_door[] = {"the transaction gave itself up", "the transaction's time was over",
        "a transaction was begun within a transaction", "an object is full", "a sum is no number of 64 bits",
        "an array has no such place", "an object of another store, or one that was not declared before the store was opened", "the store is not open", "the store is open already",
        "a transaction of the store is under way", "the store was opened before this process was forked",
        "another thread called on the transaction"};
    if (status < sizeof of_library / sizeof *of_library) return of_library[status];
    if (status >= STO_CANCELLED && status - STO_CANCELLED < sizeof of_door / sizeof *of_door) return of_door[status - STO_CANCELLED];
    return "an unknown status";
}

/* Declaring */

sto_store *sto_store_new(void)
{
    sto_store *s = calloc(1, sizeof *s);
    if (!s) return NULL;
    pthread_once(&forks_counted, count_forks);
    s->id = atomic_fetch_add(&stores, 1) + 1;
    s->forks = atomic_load(&forks);
    pthread_mutex_init(&s->changes_lock, NULL);
    pthread_mutex_init(&s->free_lock, NULL);
    pthread_mutex_init(&s->alone_lock, NULL);
    pthread_condattr_t clock;
    pthread_condattr_init(&clock);
    pthread_condattr_setclock(&clock, CLOCK_MONOTONIC);
    pthread_cond_init(&s->changed, &clock);
    pthread_cond_init(&s->freed, &clock);
    pthread_condattr_destroy(&clock);
    return s;
}

static uint32_t declare(sto_store *s, sto_shape shape)
{
    shape_list *list = &s->declared[shape.kind];
    if (s->is_open) return NO_INDEX;
    if (list->count == list->room) {
        uint32_t room = list->room ? 2 * list->room : 16;
        sto_shape *more = room > list->room ? realloc(list->shapes, room * sizeof *more) : NULL;
        if (!more) {
            s->lacks_memory = true;
            return NO_INDEX;
        }
        list->shapes = more;
        list->room = room;
    }
    list->shapes[list->count] = shape;
    return list->count++;
}

/* (a tree's leaf has four keys; a bucket of sixteen places for each four keys is full next to never) */
static uint32_t quarter(uint32_t keys) { return keys < 5 ? 1 : (keys - 1) / 4 + 1; }

sto_box sto_new_box(sto_store *s, int64_t value)
{
    return (sto_box){s->id, declare(s, (sto_shape){.kind = STO_BOX, .value = value})};
}

sto_counter sto_new_counter(sto_store *s, int64_t value)
{
    return (sto_counter){s->id, declare(s, (sto_shape){.kind = STO_COUNTER, .value = value})};
}

sto_array sto_new_array(sto_store *s, uint32_t size, int64_t value)
{
    return (sto_array){s->id, declare(s, (sto_shape){.kind = STO_ARRAY, .size = size, .value = value})};
}

sto_table sto_new_table(sto_store *s, uint32_t keys)
{
    return (sto_table){s->id, declare(s, (sto_shape){.kind = STO_HASH, .size = quarter(keys), .places = 16})};
}

sto_tree sto_new_tree(sto_store *s, uint32_t keys)
{
    return (sto_tree){s->id, declare(s, (sto_shape){.kind = STO_TREE, .size = quarter(keys)})};
}

sto_vector sto_new_vector(sto_store *s, uint32_t room)
{
    return (sto_vector){s->id, declare(s, (sto_shape){.kind = STO_VECTOR, .size = room})};
}

/* Opening and closing */

/* Takes the workers out of the store that are not out yet. */
static uint32_t hire(sto_store *s)
{
    uint32_t status = STO_OK;
    for (uint32_t i = 0; i < s->workers && !status; i++)
        if (!s->slots[i].worker.full) status = sto_worker(&s->store, &s->slots[i].worker);
    return status;
}

static void dismiss(sto_store *s)
{
    for (uint32_t i = 0; i < s->workers; i++) sto_free(&s->slots[i].worker);
    sto_free(&s->store);
    free(s->slots);
    s->slots = NULL;
    s->workers = 0;
}

/* All shapes in the order of their kinds, and how many they are; NULL where memory is wanting. */
static sto_shape *shapes_of(sto_store *s, size_t *count)
{
    size_t all = 0;
    for (int kind = 0; kind < KINDS; kind++) all += s->declared[kind].count;
    sto_shape *shapes = calloc(all + 1, sizeof *shapes);
    *count = 0;
    for (int kind = 0; shapes && kind < KINDS; kind++) {
        shape_list *list = &s->declared[kind];
        s->bases[kind] = (uint32_t)*count;
        if (list->count) memcpy(shapes + *count, list->shapes, list->count * sizeof *shapes);
        *count += list->count;
    }
    return shapes;
}

uint32_t sto_store_open(sto_store *s, uint32_t workers)
{
    if (s->forks != atomic_load(&forks)) return STO_FORKED;
    if (s->is_open) return STO_IS_OPEN;
    if (s->lacks_memory) return STO_NO_MEMORY;
    if (workers == 0 || workers > WORKERS_MOST) return STO_BAD_WORKERS;
    size_t count, room = workers * sizeof *s->slots;
    sto_shape *shapes = shapes_of(s, &count);
    s->slots = shapes ? aligned_alloc(LINE, room) : NULL;
    if (!s->slots) {
        free(shapes);
        return STO_NO_MEMORY;
    }
    memset(s->slots, 0, room);
    s->workers = workers;
    uint32_t status = count < NO_INDEX ? sto_open(&s->store, shapes, count, workers) : STO_TOO_MANY;
    free(shapes);
    if (!status) status = hire(s);
    if (status) dismiss(s);
    s->is_open = !status;
    return status;
}

void sto_store_free(sto_store *s)
{
    if (!s || s->forks != atomic_load(&forks)) return;
    dismiss(s);
    for (int kind = 0; kind < KINDS; kind++) free(s->declared[kind].shapes);
    pthread_mutex_destroy(&s->changes_lock);
    pthread_mutex_destroy(&s->free_lock);
    pthread_mutex_destroy(&s->alone_lock);
    pthread_cond_destroy(&s->changed);
    pthread_cond_destroy(&s->freed);
    free(s);
}

/* A hash table finds a key's bucket by the remainder, so that keys in steps would crowd few: the door mixes keys, one to one. */
static int64_t mixed(int64_t key)
{
    uint64_t x = (uint64_t)key;
    x = (x ^ x >> 32) * 0x9E3779B97F4A7C15u;
    return (int64_t)(x ^ x >> 32);
}

static int64_t unmixed(int64_t key)
{
    uint64_t x = (uint64_t)key;
    x = (x ^ x >> 32) * 0xF1DE83E19937733Du;
    return (int64_t)(x ^ x >> 32);
}

/* Whether a transaction is under way, or a thread waits for a change or for a worker. */
static bool in_use(const sto_store *s)
{
    bool taken = atomic_load(&s->waiting) || atomic_load(&s->hungry);
    for (uint32_t i = 0; i < s->workers && !taken; i++) taken = atomic_load(&s->slots[i].taken);
    return taken;
}

static void give_back(sto_handle *worker)
{
    while (sto_give_back(worker) == STO_BUSY) sched_yield();
}

/* Gives all workers back, and closes the store of the library. */
static uint32_t close_store(sto_store *s)
{
    uint32_t status = STO_OK;
    for (uint32_t i = 0; i < s->workers; i++) give_back(&s->slots[i].worker);
    while ((status = sto_close(&s->store)) == STO_BUSY) sched_yield();
    if (status && (!s->store.full || hire(s))) {
        dismiss(s);
        s->is_open = false;
    }
    return status;
}

static sto_row *rows_of(sto_store *s, size_t *count)
{
    sto_row none;
    size_t many = 0;
    sto_rows(&s->store, &none, 0, &many);
    sto_row *rows = calloc(many ? many : 1, sizeof *rows);
    if (rows && sto_rows(&s->store, rows, many, count)) {
        free(rows);
        return NULL;
    }
    for (size_t i = 0; rows && i < many; i++)
        if (rows[i].object >= s->bases[STO_HASH] && rows[i].object < s->bases[STO_TREE]) rows[i].key = unmixed(rows[i].key);
    return rows;
}

uint32_t sto_store_close(sto_store *s, sto_row **rows, size_t *count)
{
    if (s->forks != atomic_load(&forks)) return STO_FORKED;
    if (!s->is_open) return STO_NOT_OPEN;
    if (in_use(s)) return STO_IN_USE;
    if (!s->is_closed) {
        uint32_t status = close_store(s);
        if (status) return status;
        s->is_closed = true;
    }
    /* (where there is no memory for the rows, the library still holds them, and the call can be made again) */
    sto_row *all = rows_of(s, count);
    if (!all) return STO_NO_MEMORY;
    *rows = all;
    sto_store_free(s);
    return STO_OK;
}

/* Time and pauses */

static uint64_t now(void)
{
    struct timespec t;
    clock_gettime(CLOCK_MONOTONIC, &t);
    return (uint64_t)t.tv_sec * SECOND + (uint64_t)t.tv_nsec;
}

static uint64_t end_of(const sto_policy *policy)
{
    if (!policy || !policy->nanoseconds) return 0;
    uint64_t t = now(), most = UINT64_MAX - t;
    return t + (policy->nanoseconds < most ? policy->nanoseconds : most);
}

static bool is_over(uint64_t until) { return until && now() >= until; }

/* The moment so much later, or the end of time where that is sooner. */
static struct timespec later(uint64_t nanoseconds, uint64_t until)
{
    uint64_t t = now() + nanoseconds;
    if (until && until < t) t = until;
    return (struct timespec){(time_t)(t / SECOND), (long)(t % SECOND)};
}

/* A pause that grows: it spins, then yields, then sleeps up to a millisecond. */
static void pause_longer(uint32_t *step)
{
    if (*step < 6) {
        for (volatile uint32_t i = 0; i < 1u << *step; i++) { }
    } else if (*step < 13) {
        sched_yield();
    } else {
        uint32_t more = *step - 13 < 7 ? *step - 13 : 7;
        nanosleep(&(struct timespec){0, 8000L << more}, NULL);
    }
    ++*step;
}

static void count_one(count64 *at)
{
    atomic_store_explicit(at, atomic_load_explicit(at, memory_order_relaxed) + 1, memory_order_relaxed);
}

/* Running */

/* All that a running transaction holds: let go of at the end of its scope, also where that ends by an exception. */
typedef struct run {
    sto_store *store;
    slot *slot;
    uint64_t until, place;
    uint32_t most, met, step;
    bool gives_up, in_tx, is_waiting, is_alone, is_done;
} run;

static void cancel(run *r)
{
    if (!r->in_tx) return;
    sto_cancel(&r->slot->worker);
    r->in_tx = false;
}

static void release(run *r)
{
    if (!r->slot) return;
    if (r->in_tx) count_one(&r->slot->counts.given_up);
    cancel(r);
    r->slot->tx.thread = NULL;
    atomic_store(&r->slot->taken, false);
    r->slot = NULL;
    if (!atomic_load(&r->store->hungry)) return;
    pthread_mutex_lock(&r->store->free_lock);
    pthread_cond_signal(&r->store->freed);
    pthread_mutex_unlock(&r->store->free_lock);
}

static void leave_alone(run *r)
{
    if (!r->is_alone) return;
    r->is_alone = false;
    atomic_store(&r->store->has_alone, false);
    pthread_mutex_unlock(&r->store->alone_lock);
}

static void leave(run *r)
{
    release(r);
    leave_alone(r);
    if (r->is_waiting) atomic_fetch_sub(&r->store->waiting, 1);
    is_inside = false;
}

static bool try_take(run *r)
{
    sto_store *s = r->store;
    for (uint32_t i = 0, at = thread_number % s->workers; i < s->workers && !r->slot; i++, at = at + 1 == s->workers ? 0 : at + 1) {
        slot *it = &s->slots[at];
        if (!atomic_load_explicit(&it->taken, memory_order_relaxed) && !atomic_exchange(&it->taken, true)) r->slot = it;
    }
    return r->slot;
}

/* Takes a worker, and waits for one where all are taken. */
static uint32_t take(run *r)
{
    if (try_take(r)) return STO_OK;
    sto_store *s = r->store;
    atomic_fetch_add(&s->hungry, 1);
    pthread_mutex_lock(&s->free_lock);
    while (!try_take(r) && !is_over(r->until)) {
        struct timespec t = later(SECOND / 50, r->until);
        pthread_cond_timedwait(&s->freed, &s->free_lock, &t);
    }
    pthread_mutex_unlock(&s->free_lock);
    atomic_fetch_sub(&s->hungry, 1);
    return r->slot ? STO_OK : STO_TIMEOUT;
}

static uint64_t changes(sto_store *s)
{
    pthread_mutex_lock(&s->changes_lock);
    uint64_t seen = s->changes;
    pthread_mutex_unlock(&s->changes_lock);
    return seen;
}

static void tell_change(sto_store *s)
{
    if (!atomic_load(&s->waiting)) return;
    pthread_mutex_lock(&s->changes_lock);
    s->changes++;
    pthread_cond_broadcast(&s->changed);
    pthread_mutex_unlock(&s->changes_lock);
}

static uint32_t wait_for_change(sto_store *s, uint64_t seen, uint64_t until)
{
    bool is_late = false;
    pthread_mutex_lock(&s->changes_lock);
    while (s->changes == seen && !(is_late = is_over(until))) {
        struct timespec t = later(3600ull * SECOND, until);
        pthread_cond_timedwait(&s->changed, &s->changes_lock, &t);
    }
    pthread_mutex_unlock(&s->changes_lock);
    return is_late ? STO_TIMEOUT : STO_OK;
}

/* Waits as long as another transaction runs alone. */
static uint32_t let_pass(run *r)
{
    while (!r->is_alone && atomic_load(&r->store->has_alone)) {
        if (is_over(r->until)) return STO_TIMEOUT;
        pause_longer(&r->step);
    }
    return STO_OK;
}

static uint32_t go_alone(run *r)
{
    count_one(&r->slot->counts.alone);
    while (pthread_mutex_trylock(&r->store->alone_lock)) {
        if (is_over(r->until)) return STO_TIMEOUT;
        pause_longer(&r->step);
    }
    r->is_alone = true;
    atomic_store(&r->store->has_alone, true);
    return STO_OK;
}

/* After a try that met another transaction. */
static uint32_t go_on(run *r)
{
    if (is_over(r->until)) return STO_TIMEOUT;
    r->met++;
    uint32_t status = r->met < r->most || r->is_alone ? STO_OK : r->gives_up ? STO_BUSY : go_alone(r);
    pause_longer(&r->step);
    return status;
}

/* After a try that wants something to change. The first one is made again at once, when each commit tells of itself: so none is
 * missed in between. */
static uint32_t wait(run *r, uint64_t seen)
{
    count_one(&r->slot->counts.retries);
    cancel(r);
    leave_alone(r);
    if (!r->is_waiting) {
        r->is_waiting = true;
        atomic_fetch_add(&r->store->waiting, 1);
        return STO_OK;
    }
    /* (others need a worker to change what this one waits for) */
    release(r);
    uint32_t status = wait_for_change(r->store, seen, r->until);
    return status ? status : take(r);
}

static uint32_t commit(run *r)
{
    r->in_tx = false;
    uint32_t status = sto_commit(&r->slot->worker, &r->place);
    if (status == STO_ABORTED) {
        count_one(&r->slot->counts.aborts_at_commit);
    } else if (status) {
        count_one(&r->slot->counts.given_up);
    } else {
        count_one(&r->slot->counts.commits);
        if (r->slot->tx.wrote) tell_change(r->store);
    }
    return status;
}

/* One try: its status, or WAITS. */
static uint32_t try_once(run *r, sto_body *body, void *context)
{
    slot *at = r->slot;
    uint32_t status = sto_begin(&at->worker);
    if (status) return status;
    count_one(&at->counts.tries);
    r->in_tx = true;
    at->tx = (sto_tx){.store = r->store, .worker = &at->worker, .thread = &is_inside};
    sto_verdict verdict = body(&at->tx, context);
    status = atomic_load_explicit(&at->tx.stopped, memory_order_relaxed);
    if (status == STO_ABORTED) {
        r->in_tx = false;
        count_one(&at->counts.aborts_in_calls);
        return status;
    }
    if (status) return status;
    return verdict == STO_COMMIT ? commit(r) : verdict == STO_RETRY ? WAITS : STO_CANCELLED;
}

static uint32_t run_round(run *r, sto_body *body, void *context)
{
    uint32_t status = let_pass(r);
    if (status) return status;
    uint64_t seen = r->is_waiting ? changes(r->store) : 0;
    status = try_once(r, body, context);
    if (status == WAITS) return wait(r, seen);
    if (status == STO_ABORTED) return go_on(r);
    r->is_done = status == STO_OK;
    return status;
}

uint32_t sto_atomically(sto_store *s, sto_body *body, void *context, const sto_policy *policy, uint64_t *place)
{
    if (s->forks != atomic_load_explicit(&forks, memory_order_relaxed)) return STO_FORKED;
    if (!s->is_open || s->is_closed) return STO_NOT_OPEN;
    if (is_inside) return STO_NESTED;
    if (!thread_number) thread_number = atomic_fetch_add(&threads, 1) + 1;
    is_inside = true;
    run r __attribute__((cleanup(leave))) = {
        .store = s,
        .most = policy && policy->tries ? policy->tries : TRIES,
        .gives_up = policy && policy->give_up,
        .until = end_of(policy),
    };
    uint32_t status = take(&r);
    while (!status && !r.is_done) status = run_round(&r, body, context);
    if (!status && place) *place = r.place;
    return status;
}

/* Calls */

bool sto_stopped(const sto_tx *tx) { return tx->thread != &is_inside || atomic_load_explicit(&tx->stopped, memory_order_relaxed); }

static void stop(sto_tx *tx, uint32_t status)
{
    uint32_t none = 0;
    atomic_compare_exchange_strong(&tx->stopped, &none, status);
}

static const sto_reply nothing = {STO_ABSENT, 0, 0};

static bool may_ask(sto_tx *tx, uint32_t kind, uint32_t store, uint32_t index)
{
    if (atomic_load_explicit(&tx->stopped, memory_order_relaxed)) return false;
    if (tx->thread != &is_inside) {
        stop(tx, STO_OTHER_THREAD);
        return false;
    }
    if (store != tx->store->id || index >= tx->store->declared[kind].count) {
        stop(tx, STO_OTHER_STORE);
        return false;
    }
    return true;
}

/* The reply; `nothing` where the transaction has stopped. */
static inline sto_reply ask(sto_tx *tx, uint32_t kind, uint32_t store, uint32_t index, uint32_t operation, uint32_t numbers, int64_t a, int64_t b)
{
    enum { READS = 1 << STO_GET | 1 << STO_TEST | 1 << STO_HAS | 1 << STO_LEN | 1 << STO_NEXT | 1 << STO_COUNT | 1 << STO_SCAN };
    if (!may_ask(tx, kind, store, index)) return nothing;
    if (!(READS >> operation & 1)) tx->wrote = true;
    sto_call call = {.object = tx->store->bases[kind] + index, .operation = operation, .numbers = numbers, .a = a, .b = b};
    sto_reply reply = nothing;
    uint32_t status = sto_ask(tx->worker, &call, &reply);
    if (status) {
        stop(tx, status);
        return nothing;
    }
    if (reply.answer == STO_RANGE) stop(tx, STO_OUT_OF_RANGE);
    return reply;
}

/* with no number, with one, with two */
#define ASK0(kind, object, operation) ask(tx, kind, (object).store, (object).index, operation, 0, 0, 0)
#define ASK1(kind, object, operation, a) ask(tx, kind, (object).store, (object).index, operation, 1, a, 0)
#define ASK2(kind, object, operation, a, b) ask(tx, kind, (object).store, (object).index, operation, 2, a, b)

static bool has_value(sto_reply reply, int64_t *value)
{
    if (reply.answer != STO_VALUE) return false;
    if (value) *value = reply.value;
    return true;
}

static int64_t at_place(sto_tx *tx, sto_reply reply)
{
    if (reply.answer == STO_ABSENT) stop(tx, STO_NO_PLACE);
    return reply.value;
}

static void had_room(sto_tx *tx, bool had)
{
    if (!had) stop(tx, STO_IS_FULL);
}

int64_t sto_box_get(sto_tx *tx, sto_box o) { return ASK0(STO_BOX, o, STO_GET).value; }
void sto_box_set(sto_tx *tx, sto_box o, int64_t value) { ASK1(STO_BOX, o, STO_SET, value); }

int64_t sto_counter_get(sto_tx *tx, sto_counter o) { return ASK0(STO_COUNTER, o, STO_GET).value; }
void sto_counter_add(sto_tx *tx, sto_counter o, int64_t delta) { ASK1(STO_COUNTER, o, STO_ADD, delta); }
bool sto_counter_take(sto_tx *tx, sto_counter o, int64_t amount) { return ASK1(STO_COUNTER, o, STO_TAKE, amount).value; }
bool sto_counter_at_least(sto_tx *tx, sto_counter o, int64_t amount) { return ASK2(STO_COUNTER, o, STO_TEST, STO_GE, amount).value; }

int64_t sto_array_get(sto_tx *tx, sto_array o, int64_t at) { return at_place(tx, ASK1(STO_ARRAY, o, STO_GET, at)); }
void sto_array_set(sto_tx *tx, sto_array o, int64_t at, int64_t value) { at_place(tx, ASK2(STO_ARRAY, o, STO_SET, at, value)); }
void sto_array_add(sto_tx *tx, sto_array o, int64_t at, int64_t delta) { at_place(tx, ASK2(STO_ARRAY, o, STO_ADD, at, delta)); }

bool sto_table_get(sto_tx *tx, sto_table o, int64_t key, int64_t *value) { return has_value(ASK1(STO_HASH, o, STO_GET, mixed(key)), value); }
bool sto_table_try_put(sto_tx *tx, sto_table o, int64_t key, int64_t value) { return ASK2(STO_HASH, o, STO_PUT, mixed(key), value).answer == STO_DONE; }
void sto_table_put(sto_tx *tx, sto_table o, int64_t key, int64_t value) { had_room(tx, sto_table_try_put(tx, o, key, value)); }
bool sto_table_remove(sto_tx *tx, sto_table o, int64_t key) { return ASK1(STO_HASH, o, STO_REMOVE, mixed(key)).value; }
bool sto_table_has(sto_tx *tx, sto_table o, int64_t key) { return ASK1(STO_HASH, o, STO_HAS, mixed(key)).value; }
int64_t sto_table_len(sto_tx *tx, sto_table o) { return ASK0(STO_HASH, o, STO_LEN).value; }

bool sto_tree_get(sto_tx *tx, sto_tree o, int64_t key, int64_t *value) { return has_value(ASK1(STO_TREE, o, STO_GET, key), value); }
bool sto_tree_try_put(sto_tx *tx, sto_tree o, int64_t key, int64_t value) { return ASK2(STO_TREE, o, STO_PUT, key, value).answer == STO_DONE; }
void sto_tree_put(sto_tx *tx, sto_tree o, int64_t key, int64_t value) { had_room(tx, sto_tree_try_put(tx, o, key, value)); }
bool sto_tree_remove(sto_tx *tx, sto_tree o, int64_t key) { return ASK1(STO_TREE, o, STO_REMOVE, key).value; }
bool sto_tree_next(sto_tx *tx, sto_tree o, int64_t from, int64_t *key) { return has_value(ASK1(STO_TREE, o, STO_NEXT, from), key); }
int64_t sto_tree_count(sto_tx *tx, sto_tree o, int64_t first, int64_t last) { return ASK2(STO_TREE, o, STO_COUNT, first, last).value; }
int64_t sto_tree_len(sto_tx *tx, sto_tree o) { return ASK0(STO_TREE, o, STO_LEN).value; }

size_t sto_tree_scan(sto_tx *tx, sto_tree o, int64_t first, int64_t last, sto_pair *pairs, size_t room)
{
    sto_reply reply = ASK2(STO_TREE, o, STO_SCAN, first, last);
    size_t count = (size_t)reply.value;
    if (reply.answer != STO_PAIRS || count > room || count == 0) return count;
    uint32_t status = sto_pairs(tx->worker, pairs, room, &count);
    if (status) stop(tx, status);
    return status ? 0 : count;
}

size_t sto_tree_walk(sto_tx *tx, sto_tree o, int64_t from, sto_pair *pairs, size_t room)
{
    size_t count = 0;
    if (!may_ask(tx, STO_TREE, o.store, o.index)) return 0;
    uint32_t status = sto_walk(tx->worker, tx->store->bases[STO_TREE] + o.index, from, pairs, room, &count);
    if (status) stop(tx, status);
    return count;
}

bool sto_vector_get(sto_tx *tx, sto_vector o, int64_t at, int64_t *value) { return has_value(ASK1(STO_VECTOR, o, STO_GET, at), value); }
bool sto_vector_try_push(sto_tx *tx, sto_vector o, int64_t value) { return ASK1(STO_VECTOR, o, STO_PUSH, value).answer == STO_DONE; }
void sto_vector_push(sto_tx *tx, sto_vector o, int64_t value) { had_room(tx, sto_vector_try_push(tx, o, value)); }
bool sto_vector_pop(sto_tx *tx, sto_vector o, int64_t *value) { return has_value(ASK0(STO_VECTOR, o, STO_POP), value); }
int64_t sto_vector_len(sto_tx *tx, sto_vector o) { return ASK0(STO_VECTOR, o, STO_LEN).value; }

void sto_stats(sto_store *s, sto_counts *counts, size_t size)
{
    sto_counts all = {0};
    for (uint32_t i = 0; i < s->workers; i++) {
        slot *it = &s->slots[i];
        all.commits += atomic_load_explicit(&it->counts.commits, memory_order_relaxed);
        all.tries += atomic_load_explicit(&it->counts.tries, memory_order_relaxed);
        all.aborts_in_calls += atomic_load_explicit(&it->counts.aborts_in_calls, memory_order_relaxed);
        all.aborts_at_commit += atomic_load_explicit(&it->counts.aborts_at_commit, memory_order_relaxed);
        all.retries += atomic_load_explicit(&it->counts.retries, memory_order_relaxed);
        all.given_up += atomic_load_explicit(&it->counts.given_up, memory_order_relaxed);
        all.alone += atomic_load_explicit(&it->counts.alone, memory_order_relaxed);
    }
    memset(counts, 0, size);
    memcpy(counts, &all, size < sizeof all ? size : sizeof all);
}
