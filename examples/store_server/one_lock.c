/* The requests over one lock, to measure the transactions against. */
#include "engine.h"
#include "plain.h"

#include <pthread.h>
#include <stdio.h>

static pthread_mutex_t lock = PTHREAD_MUTEX_INITIALIZER;
static plain *content;
static uint64_t groups;

static const char *open_plain(uint32_t keys, uint32_t threads)
{
    (void)threads;
    content = plain_new(keys);
    return content ? NULL : "memory is wanting";
}

static void run_locked(const group *g, outcome *told)
{
    pthread_mutex_lock(&lock);
    plain_run(content, g, told);
    told->place = ++groups;
    pthread_mutex_unlock(&lock);
}

static bool close_plain(void)
{
    printf("%zu keys\n", plain_count(content));
    plain_free(content);
    return true;
}

const engine one_lock = {"one lock", open_plain, run_locked, close_plain};
