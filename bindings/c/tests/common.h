/* What the examples share: a thread's worker, and how a transaction is tried until it commits. */
#ifndef COMMON_H
#define COMMON_H

#include <pthread.h>
#include <sched.h>
#include <stdio.h>
#include <stdlib.h>

#include "sto.h"

/* Ends the program where a call was not done. */
static inline void need(uint32_t status, const char *what)
{
    if (status != STO_OK) {
        fprintf(stderr, "%s: status %u\n", what, status);
        exit(1);
    }
}

/* After this many aborts in a row a thread yields before it tries again. */
enum { SPINS = 4 };

/* Waits a little before the next try. */
static inline void wait_a_little(unsigned tries)
{
    if (tries < SPINS) {
        for (volatile unsigned i = 0; i < 16u << tries; i++) {
        }
    } else {
        sched_yield();
    }
}

/* A small generator of numbers, one for each thread. */
static inline uint32_t next_number(uint32_t *state)
{
    *state = *state * 1664525u + 1013904223u;
    return *state >> 8;
}

/* Runs a function on threads 0 to n - 1, each with its own worker of the store. */
typedef struct task {
    sto_handle worker;
    unsigned number;
    unsigned rounds;
    uint64_t aborted;
    uint64_t done;
    uint64_t refused;
} task;

static inline void start_threads(sto_handle *store, task *tasks, pthread_t *threads, unsigned n, unsigned rounds, void *(*work)(void *))
{
    for (unsigned i = 0; i < n; i++) {
        tasks[i] = (task){.worker = STO_NONE, .number = i, .rounds = rounds};
        need(sto_worker(store, &tasks[i].worker), "sto_worker");
    }
    for (unsigned i = 0; i < n; i++) {
        if (pthread_create(&threads[i], NULL, work, &tasks[i]) != 0) {
            fprintf(stderr, "no thread\n");
            exit(1);
        }
    }
}

static inline void join_threads(pthread_t *threads, unsigned n)
{
    for (unsigned i = 0; i < n; i++) {
        pthread_join(threads[i], NULL);
    }
}

static inline void run_threads(sto_handle *store, task *tasks, unsigned n, unsigned rounds, void *(*work)(void *))
{
    pthread_t threads[64];
    start_threads(store, tasks, threads, n, rounds, work);
    join_threads(threads, n);
}

#endif
