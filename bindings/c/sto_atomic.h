/* Transactions as functions: a door over sto.h that owns the loop of tries. docs/c.md is the guide.
 *
 * A program declares objects, opens the store, and from any thread runs functions of its own as transactions:
 *
 *     static sto_verdict pay(sto_tx *tx, void *given)
 *     {
 *         int64_t has = sto_box_get(tx, alice);
 *         if (has < 30) return STO_RETRY;                // waits until something has changed, and runs again
 *         sto_box_set(tx, alice, has - 30);
 *         sto_box_set(tx, bob, sto_box_get(tx, bob) + 30);
 *         return STO_COMMIT;
 *     }
 *     ... sto_atomically(store, pay, NULL, NULL, NULL);
 *
 * A call within a transaction answers a plain value. Where the transaction met another one, or cannot go on, it stops. The stop
 * sticks to the sto_tx: each later call does nothing and answers 0 (false), and whatever the function then answers, nothing of it
 * takes effect. The transaction is tried again, or sto_atomically tells why it was not done. That 0 is no value of the object: ask
 * sto_stopped before you divide by an answer, take it as a place in memory of your own, or loop on it.
 *
 * The function may run several times. It must not write, send, take a lock, change memory that counts elsewhere, or wait for a
 * transaction of another thread, which may have to wait for this one.
 * It may leave by a C++ exception, which gives the transaction up; not by longjmp, and its thread is not cancelled meanwhile. A
 * sto_tx is good within its function, on its thread: a call of another thread stops the transaction, and one after its end does
 * nothing.
 *
 * Each sto_tx and each sto_store comes from this door. A program may use sto.h besides, on handles of its own.
 */
#ifndef STO_ATOMIC_H
#define STO_ATOMIC_H

#include <stdbool.h>
#include <stddef.h>
#include <stdint.h>

#include "sto.h"

#ifdef __cplusplus
extern "C" {
#endif

/* What the functions below answer besides the statuses of sto.h. */
enum {
    STO_CANCELLED = 64,    /* the function answered STO_CANCEL */
    STO_TIMEOUT = 65,      /* the policy's time was over */
    STO_NESTED = 66,       /* sto_atomically was called within a transaction */
    STO_IS_FULL = 67,      /* a table, tree or vector has no room */
    STO_OUT_OF_RANGE = 68, /* a sum is no number of 64 bits */
    STO_NO_PLACE = 69,     /* an array has no such place */
    STO_OTHER_STORE = 70,  /* the object is of another store, or was not declared before the store was opened */
    STO_NOT_OPEN = 71,     /* the store was not opened yet, or was lost as it was to be closed */
    STO_IS_OPEN = 72,      /* the store is open already */
    STO_IN_USE = 73,       /* a transaction of the store is under way, or a thread waits in it */
    STO_FORKED = 74,       /* the store was opened before this process was forked */
    STO_OTHER_THREAD = 75  /* another thread called on the transaction */
};

/* A text for a status, of these or of sto.h. */
const char *sto_status_text(uint32_t status);

typedef struct sto_store sto_store;
typedef struct sto_tx sto_tx;

/* Objects. They are copied freely, and are good for their store only. */
typedef struct sto_box { uint32_t store, index; } sto_box;         /* one number */
typedef struct sto_counter { uint32_t store, index; } sto_counter; /* one number that many add to at once */
typedef struct sto_array { uint32_t store, index; } sto_array;     /* numbers at places from 0 */
typedef struct sto_table { uint32_t store, index; } sto_table;     /* keys with values, in no order */
typedef struct sto_tree { uint32_t store, index; } sto_tree;       /* keys with values, in the order of the keys */
typedef struct sto_vector { uint32_t store, index; } sto_vector;   /* numbers, one behind the other */

/* Begins a store. NULL where memory is wanting. Its objects are declared next, in any order, by one thread. */
sto_store *sto_store_new(void);
sto_box sto_new_box(sto_store *, int64_t value);
sto_counter sto_new_counter(sto_store *, int64_t value);
sto_array sto_new_array(sto_store *, uint32_t size, int64_t value);
sto_table sto_new_table(sto_store *, uint32_t keys);  /* room for about so many keys; it does not grow */
sto_tree sto_new_tree(sto_store *, uint32_t keys);    /* room for so many keys; each call takes time by that, not by how many there are */
sto_vector sto_new_vector(sto_store *, uint32_t room);

/* Opens it. So many transactions can run at the same moment, from 1 to 65,536; more threads than that wait for one another. From
 * here on any thread may use it. Where it answers no STO_OK it was not opened; want of memory at a declaration is told here. */
uint32_t sto_store_open(sto_store *, uint32_t workers);

/* Closes it, and answers what its objects held, in *rows, which the program frees by free(): first the rows of the boxes in the
 * order in which they were declared, then those of the counters, the arrays, the tables, the trees, the vectors. The keys of a
 * table are in no order. Where the answer is STO_OK the store was freed. After STO_NO_MEMORY it is open as before, or it was lost,
 * and later calls answer STO_NOT_OPEN. No other thread may be in a call on the store, or call on it later. */
uint32_t sto_store_close(sto_store *, sto_row **rows, size_t *count);

/* Frees a store, with all that it holds. No other thread may be in a call on it. NULL is fine. */
void sto_store_free(sto_store *);

typedef enum sto_verdict {
    STO_COMMIT = 0,
    STO_CANCEL = 1, /* the transaction is given up */
    STO_RETRY = 2   /* the try is given up, and another one made when some transaction has changed something */
} sto_verdict;

typedef sto_verdict sto_body(sto_tx *, void *context);

/* What is done about a transaction that meets others. All zero is the same as no policy. */
typedef struct sto_policy {
    uint32_t tries;       /* 0: sixteen */
    bool give_up;         /* after the tries: STO_BUSY; else no other try begins until this transaction is done */
    uint64_t nanoseconds; /* 0: no end of time; else STO_TIMEOUT, which is looked at between tries */
} sto_policy;

/* Runs a function as a transaction, and writes its place in the order where `place` is not NULL. Where the answer is not STO_OK
 * nothing took effect, and the place was left as it was. */
uint32_t sto_atomically(sto_store *, sto_body *, void *context, const sto_policy *, uint64_t *place);

/* Whether the transaction has stopped, so that later calls do nothing. */
bool sto_stopped(const sto_tx *);

int64_t sto_box_get(sto_tx *, sto_box);
void sto_box_set(sto_tx *, sto_box, int64_t value);

int64_t sto_counter_get(sto_tx *, sto_counter);
void sto_counter_add(sto_tx *, sto_counter, int64_t delta);           /* stops by STO_OUT_OF_RANGE */
bool sto_counter_take(sto_tx *, sto_counter, int64_t amount);         /* takes it where there is as much, and answers whether */
bool sto_counter_at_least(sto_tx *, sto_counter, int64_t amount);

int64_t sto_array_get(sto_tx *, sto_array, int64_t at);               /* these stop by STO_NO_PLACE */
void sto_array_set(sto_tx *, sto_array, int64_t at, int64_t value);
void sto_array_add(sto_tx *, sto_array, int64_t at, int64_t delta);   /* stops by STO_OUT_OF_RANGE */

bool sto_table_get(sto_tx *, sto_table, int64_t key, int64_t *value); /* where it answers false, *value is left as it was */
void sto_table_put(sto_tx *, sto_table, int64_t key, int64_t value);  /* stops by STO_IS_FULL */
bool sto_table_try_put(sto_tx *, sto_table, int64_t key, int64_t value);
bool sto_table_remove(sto_tx *, sto_table, int64_t key);              /* whether it was there */
bool sto_table_has(sto_tx *, sto_table, int64_t key);
int64_t sto_table_len(sto_tx *, sto_table); /* goes through all buckets: keep a counter beside a large table */

bool sto_tree_get(sto_tx *, sto_tree, int64_t key, int64_t *value);   /* where it answers false, *value is left as it was */
void sto_tree_put(sto_tx *, sto_tree, int64_t key, int64_t value);    /* stops by STO_IS_FULL */
bool sto_tree_try_put(sto_tx *, sto_tree, int64_t key, int64_t value);
bool sto_tree_remove(sto_tx *, sto_tree, int64_t key);
bool sto_tree_next(sto_tx *, sto_tree, int64_t from, int64_t *key);   /* the least key that is at least `from` */
int64_t sto_tree_count(sto_tx *, sto_tree, int64_t first, int64_t last);
int64_t sto_tree_len(sto_tx *, sto_tree);
/* How many pairs there are from the first to the last key, both of them with it. They are copied where there is room for all. */
size_t sto_tree_scan(sto_tx *, sto_tree, int64_t first, int64_t last, sto_pair *pairs, size_t room);

/* The first pairs from a key on, as many as there is room for: how many they are. Where they are fewer, the tree has no more. The next
 * piece begins at the last key + 1. The transaction has read no key beyond them. */
size_t sto_tree_walk(sto_tx *, sto_tree, int64_t from, sto_pair *pairs, size_t room);

bool sto_vector_get(sto_tx *, sto_vector, int64_t at, int64_t *value);
void sto_vector_push(sto_tx *, sto_vector, int64_t value);            /* stops by STO_IS_FULL */
bool sto_vector_try_push(sto_tx *, sto_vector, int64_t value);
bool sto_vector_pop(sto_tx *, sto_vector, int64_t *value);
int64_t sto_vector_len(sto_tx *, sto_vector);

/* What a store has done so far, of all threads. tries is the sum of the commits, the aborts, the retries and those given up, as
 * long as none is under way. */
typedef struct sto_counts {
    uint64_t commits;          /* transactions that took effect */
    uint64_t tries;            /* of whatever end */
    uint64_t aborts_in_calls;  /* tries that met another transaction in a call */
    uint64_t aborts_at_commit; /* tries that met another transaction at their commit */
    uint64_t retries;          /* tries that ended by STO_RETRY */
    uint64_t given_up;         /* tries after which the transaction was not done */
    uint64_t alone;            /* transactions that used their tries up, and went on alone */
} sto_counts;

/* Tells it. `size` is sizeof(sto_counts) of the program: later versions may count more. */
void sto_stats(sto_store *, sto_counts *, size_t size);

#ifdef __cplusplus
}
#endif
#endif
