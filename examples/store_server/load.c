/* Transfers within families of sixteen keys, gets, and sums of a whole family, which are the same at each moment. */
#include "trials.h"
#include "wire.h"

#include <stdlib.h>

enum { FAMILIES = 256, FAMILY = GROUP_MOST, BEGINS_WITH = 100, SUM = FAMILY * BEGINS_WITH };

typedef struct caller {
    uint32_t random;
    size_t count, depth;
} caller;

static group sum_of(int64_t family)
{
    group g = {.count = FAMILY};
    for (int64_t i = 0; i < FAMILY; i++) g.requests[i] = (request){.operation = GET, .key = family * FAMILY + i};
    return g;
}

static void fill(const wire *w)
{
    for (int64_t family = 0; family < FAMILIES; family++) {
        group g = sum_of(family);
        for (size_t i = 0; i < FAMILY; i++) g.requests[i].operation = PUT, g.requests[i].amount = BEGINS_WITH;
        if (wire_ask(w, &g).ending != TOOK_EFFECT) fail("there is too little room");
    }
}

static group random_group(caller *c)
{
    int64_t family = below(&c->random, FAMILIES), first = family * FAMILY;
    int64_t one = first + below(&c->random, FAMILY), other = first + below(&c->random, FAMILY);
    uint32_t kind = below(&c->random, 10);
    if (kind == 0) return sum_of(family);
    if (kind < 3) return only((request){.operation = GET, .key = one});
    return only((request){.operation = TRANSFER, .key = one, .to = other, .amount = 1 + below(&c->random, 20)});
}

static void see(const group *g, const outcome *told)
{
    int64_t sum = 0;
    bool is_transfer = g->requests[0].operation == TRANSFER;
    if (is_transfer && told->ending == WAS_REFUSED && told->answers[0].kind == IS_SHORT) return;
    if (told->ending != TOOK_EFFECT || told->answers[0].kind != (is_transfer ? IS_DONE : IS_VALUE)) fail("no answer that may be");
    for (size_t i = 0; i < g->count && !is_transfer; i++) {
        if (told->answers[i].kind != IS_VALUE || told->answers[i].value < 0 || told->answers[i].value > SUM) fail("no value that may be");
        sum += told->answers[i].value;
    }
    if (g->count == FAMILY && sum != SUM) fail("a sum of %lld", (long long)sum);
}

static void *call_thread(void *given)
{
    caller *c = given;
    group *groups = calloc(c->depth, sizeof *groups);
    if (!groups) fail("memory is wanting");
    wire w = wire_open();
    for (size_t done = 0; done < c->count; done += c->depth) {
        for (size_t i = 0; i < c->depth; i++) groups[i] = random_group(c);
        wire_groups(&w, groups, c->depth);
        for (size_t i = 0; i < c->depth; i++) {
            outcome told = wire_outcome(&w, &groups[i]);
            see(&groups[i], &told);
        }
    }
    wire_close(&w);
    free(groups);
    return NULL;
}

void load(size_t connections, size_t groups, size_t depth)
{
    caller *callers = calloc(connections, sizeof *callers);
    wire w = wire_open();
    if (!callers) fail("memory is wanting");
    fill(&w);
    for (size_t i = 0; i < connections; i++) callers[i] = (caller){(uint32_t)i * 2654435761u + 1, groups, depth};
    double began = now();
    on_threads(connections, call_thread, callers, sizeof *callers);
    double took = now() - began;
    for (int64_t family = 0; family < FAMILIES; family++) {
        group g = sum_of(family);
        outcome told = wire_ask(&w, &g);
        see(&g, &told);
    }
    wire_close(&w);
    free(callers);
    printf("load: %.0f groups a second, and each sum is right\n", (double)(connections * groups) / took);
}
