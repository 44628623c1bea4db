/* A soak: threads move money between accounts for some time, one audits, and what the process holds in memory is looked at.
 *
 *     soak SECONDS THREADS
 */
#define _GNU_SOURCE
#include <stdatomic.h>
#include <time.h>
#include <unistd.h>

#include "common.h"

enum { ACCOUNTS = 256, BEGINS_WITH = 100, LOOKS = 10, GROWTH_KIB = 2048 };

static atomic_bool ends;

/* What the process holds, in KiB. */
static long held(void)
{
    long pages = 0, resident = 0;
    FILE *file = fopen("/proc/self/statm", "r");
    if (file == NULL || fscanf(file, "%ld %ld", &pages, &resident) != 2) {
        fprintf(stderr, "/proc/self/statm cannot be read\n");
        exit(1);
    }
    fclose(file);
    return resident * (sysconf(_SC_PAGESIZE) / 1024);
}

static uint32_t try_transfer(sto_handle *w, uint32_t from, uint32_t to, int64_t amount)
{
    sto_reply reply;
    uint64_t place;
    uint32_t status;
    need(sto_begin(w), "sto_begin");
    if ((status = sto_get(w, from, &reply)) != STO_OK) {
        return status;
    }
    if (reply.value < amount) {
        return sto_cancel(w);
    }
    if ((status = sto_set(w, from, reply.value - amount, &reply)) != STO_OK || (status = sto_get(w, to, &reply)) != STO_OK ||
        (status = sto_set(w, to, reply.value + amount, &reply)) != STO_OK) {
        return status;
    }
    return sto_commit(w, &place);
}

static void *work(void *given)
{
    task *t = given;
    uint32_t state = t->number * 2654435761u + 12345u;
    while (!atomic_load(&ends)) {
        uint32_t from = next_number(&state) % ACCOUNTS;
        uint32_t to = t->done % 16 == 0 ? from : next_number(&state) % ACCOUNTS;
        uint32_t status;
        unsigned tries = 0;
        while ((status = try_transfer(&t->worker, from, to, 1 + next_number(&state) % 9)) == STO_ABORTED) {
            t->aborted++;
            wait_a_little(tries++);
        }
        need(status, "a transfer");
        t->done++;
    }
    return NULL;
}

/* The sum of all accounts at one moment. */
static int64_t audit(sto_handle *w)
{
    static sto_call calls[ACCOUNTS];
    static sto_reply replies[ACCOUNTS];
    uint64_t place;
    uint32_t status;
    for (uint32_t i = 0; i < ACCOUNTS; i++) {
        calls[i] = (sto_call){.object = i, .operation = STO_GET};
    }
    while ((status = sto_run(w, calls, ACCOUNTS, replies, ACCOUNTS, &place)) == STO_BUSY) {
        sched_yield();
    }
    need(status, "an audit");
    int64_t sum = 0;
    for (uint32_t i = 0; i < ACCOUNTS; i++) {
        sum += replies[i].value;
    }
    return sum;
}

/* Looks ten times at what the process holds and at the sum. Answers whether the sum held, and memory was at the last look at most
 * 2 MiB more than at the first. */
static int look_on(sto_handle *w, unsigned seconds)
{
    long first = 0, now = 0;
    for (int look = 1; look <= LOOKS; look++) {
        struct timespec wait = {seconds / LOOKS, (long)(seconds % LOOKS) * (1000000000L / LOOKS)};
        nanosleep(&wait, NULL);
        int64_t sum = audit(w);
        now = held();
        first = look == 1 ? now : first;
        printf("look %d: sum %lld, memory %ld KiB\n", look, (long long)sum, now);
        fflush(stdout);
        if (sum != ACCOUNTS * BEGINS_WITH) {
            return 0;
        }
    }
    return now <= first + GROWTH_KIB;
}

int main(int argc, char **argv)
{
    unsigned seconds = argc > 1 ? (unsigned)atoi(argv[1]) : 600;
    unsigned n = argc > 2 ? (unsigned)atoi(argv[2]) : 4;
    if (n < 1 || n > 64) {
        fprintf(stderr, "1 to 64 threads\n");
        return 2;
    }
    sto_shape shapes[ACCOUNTS];
    for (unsigned i = 0; i < ACCOUNTS; i++) {
        shapes[i] = (sto_shape){.kind = STO_BOX, .value = BEGINS_WITH};
    }
    sto_handle store = STO_NONE, auditor = STO_NONE;
    need(sto_open(&store, shapes, ACCOUNTS, n + 1), "sto_open");
    need(sto_worker(&store, &auditor), "sto_worker");
    static task tasks[64];
    pthread_t threads[64];
    start_threads(&store, tasks, threads, n, 0, work);
    int right = look_on(&auditor, seconds);
    atomic_store(&ends, 1);
    join_threads(threads, n);
    for (unsigned i = 0; i < n; i++) {
        uint64_t left = 0;
        need(sto_tickets(&tasks[i].worker, &left), "sto_tickets");
        printf("thread %u: transfers %llu, aborted %llu, tickets left %llu\n", i, (unsigned long long)tasks[i].done,
            (unsigned long long)tasks[i].aborted, (unsigned long long)left);
        right = right && left == ((uint64_t)1 << 40) - tasks[i].done - tasks[i].aborted;
        need(sto_give_back(&tasks[i].worker), "sto_give_back");
    }
    need(sto_give_back(&auditor), "sto_give_back");
    need(sto_close(&store), "sto_close");
    need(sto_free(&store), "sto_free");
    printf("soak: %s\n", right ? "right" : "WRONG");
    return right ? 0 : 1;
}
