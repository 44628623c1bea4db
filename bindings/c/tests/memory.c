/* Each allocation is refused in turn: the status tells it, what was there before works on, and nothing leaks. To be linked with
 * -Wl,--wrap= of malloc, calloc, realloc, aligned_alloc, posix_memalign and free. */
#include <errno.h>
#include <stdio.h>
#include <stdlib.h>
#include <sto_atomic.h>

static long left = -1, live;

void *__real_malloc(size_t), *__real_calloc(size_t, size_t), *__real_realloc(void *, size_t), *__real_aligned_alloc(size_t, size_t);
int __real_posix_memalign(void **, size_t, size_t);
void __real_free(void *);

static int is_refused(void) { return left >= 0 && left-- == 0; }

static void *counted(void *p)
{
    live += p != NULL;
    return p;
}

void *__wrap_malloc(size_t n) { return is_refused() ? NULL : counted(__real_malloc(n)); }
void *__wrap_calloc(size_t n, size_t m) { return is_refused() ? NULL : counted(__real_calloc(n, m)); }
void *__wrap_aligned_alloc(size_t a, size_t n) { return is_refused() ? NULL : counted(__real_aligned_alloc(a, n)); }

void *__wrap_realloc(void *p, size_t n)
{
    if (is_refused()) return NULL;
    return p ? __real_realloc(p, n) : counted(__real_realloc(p, n));
}

int __wrap_posix_memalign(void **p, size_t a, size_t n)
{
    int failed = is_refused() ? ENOMEM : __real_posix_memalign(p, a, n);
    live += !failed;
    return failed;
}

void __wrap_free(void *p)
{
    live -= p != NULL;
    __real_free(p);
}

#define NEED(x) do { if (!(x)) { fprintf(stderr, "memory.c:%d: %s, refused %ld\n", __LINE__, #x, number); exit(1); } } while (0)

static sto_box box;
static sto_tree tree;
static sto_table table;
static long told, lost;

static sto_verdict work(sto_tx *tx, void *given)
{
    int64_t *sum = given;
    for (int64_t i = 0; i < 40; i++) {
        sto_tree_put(tx, tree, i, i);
        sto_table_put(tx, table, i, i);
    }
    sto_box_set(tx, box, sto_box_get(tx, box) + 1);
    *sum = sto_tree_count(tx, tree, 0, 100);
    return STO_COMMIT;
}

/* Declares and opens a store; NULL where the refused allocation was one of these. */
static sto_store *open_store(long number)
{
    sto_store *store = sto_store_new();
    if (!store) return NULL;
    box = sto_new_box(store, 0);
    tree = sto_new_tree(store, 64);
    table = sto_new_table(store, 64);
    uint32_t status = sto_store_open(store, 3);
    if (!status) return store;
    NEED(status == STO_NO_MEMORY);
    sto_store_free(store);
    return NULL;
}

static void close_store(sto_store *store, long number)
{
    sto_row *rows = NULL;
    size_t count = 0;
    uint32_t status = sto_store_close(store, &rows, &count);
    if (status) {
        NEED(status == STO_NO_MEMORY);
        told++;
        status = sto_store_close(store, &rows, &count);
        NEED(status == STO_OK || status == STO_NOT_OPEN);
    }
    if (status) {
        lost++;
        sto_store_free(store);
        return;
    }
    NEED(rows[0].value >= 1 && count == 81);
    free(rows);
}

/* Refuses the allocation of this number, and answers whether it came to it. */
static int refuse(long number)
{
    int64_t sum = 0;
    left = number;
    sto_store *store = open_store(number);
    if (store) {
        uint32_t first = sto_atomically(store, work, &sum, NULL, NULL), second;
        NEED(first == STO_OK ? sum == 40 : first == STO_NO_MEMORY);
        second = sto_atomically(store, work, &sum, NULL, NULL);
        NEED(second == STO_OK || (second == STO_NO_MEMORY && !first));
        told += first || second;
        close_store(store, number);
    } else {
        told++;
    }
    NEED(live == 0);
    return left < 0;
}

int main(void)
{
    long number = 0;
    while (refuse(number)) number++;
    printf("memory: %ld allocations refused one by one, %ld told of it, %ld stores lost at their close, nothing leaked\n", number, told, lost);
    return told == 0;
}
