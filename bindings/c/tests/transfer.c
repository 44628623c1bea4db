/* What one transfer costs: a begin, two gets and two sets of boxes, and a commit.
 *
 *     transfer BOXES THREADS ROUNDS
 */
#define _GNU_SOURCE
#include <time.h>

#include "common.h"

static uint32_t boxes;
static pthread_barrier_t gate;
static double spent[64];

static double now(void)
{
    struct timespec t;
    clock_gettime(CLOCK_MONOTONIC, &t);
    return (double)t.tv_sec * 1e9 + (double)t.tv_nsec;
}

static uint32_t try_one(sto_handle *w, uint32_t from, uint32_t to, int64_t amount)
{
    sto_reply x, y, r;
    uint64_t place;
    uint32_t s;
    need(sto_begin(w), "sto_begin");
    if ((s = sto_get(w, from, &x)) || (s = sto_get(w, to, &y))) {
        return s;
    }
    if (x.value < amount) {
        return sto_cancel(w);
    }
    if ((s = sto_set(w, from, x.value - amount, &r)) || (s = sto_set(w, to, y.value + amount, &r))) {
        return s;
    }
    return sto_commit(w, &place);
}

static void *work(void *given)
{
    task *t = given;
    uint32_t x = (t->number + 1) * 2654435761u + 12345u;
    pthread_barrier_wait(&gate);
    double began = now();
    for (unsigned i = 0; i < t->rounds; i++) {
        uint32_t a = next_number(&x) % boxes, b = next_number(&x) % boxes;
        if (a == b) {
            b = (b + 1) % boxes;
        }
        uint32_t s;
        unsigned tries = 0;
        while ((s = try_one(&t->worker, a, b, 1 + (int64_t)(x & 3))) == STO_ABORTED) {
            t->aborted++;
            wait_a_little(tries++);
        }
        need(s, "a transfer");
    }
    spent[t->number] = now() - began;
    return NULL;
}

int main(int argc, char **argv)
{
    if (argc != 4) {
        fprintf(stderr, "transfer BOXES THREADS ROUNDS\n");
        return 2;
    }
    boxes = (uint32_t)atoi(argv[1]);
    unsigned threads = (unsigned)atoi(argv[2]), rounds = (unsigned)atoi(argv[3]);
    if (boxes < 2 || threads < 1 || threads > 64) {
        fprintf(stderr, "2 boxes and 1 to 64 threads\n");
        return 2;
    }
    sto_shape *shapes = calloc(boxes, sizeof *shapes);
    for (uint32_t i = 0; i < boxes; i++) {
        shapes[i] = (sto_shape){.kind = STO_BOX, .value = 100};
    }
    sto_handle store = STO_NONE;
    need(sto_open(&store, shapes, boxes, threads), "sto_open");
    static task tasks[64];
    pthread_barrier_init(&gate, NULL, threads);
    run_threads(&store, tasks, threads, rounds, work);
    double longest = 0;
    uint64_t aborted = 0;
    for (unsigned i = 0; i < threads; i++) {
        longest = spent[i] > longest ? spent[i] : longest;
        aborted += tasks[i].aborted;
        need(sto_free(&tasks[i].worker), "sto_free");
    }
    need(sto_free(&store), "sto_free");
    free(shapes);
    printf("boxes %u, threads %u: %.0f ns a transfer of a thread, %.0f ns a transfer of all, aborted %llu\n", boxes, threads, longest / rounds, longest / rounds / threads, (unsigned long long)aborted);
    return 0;
}
