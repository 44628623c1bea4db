/* Every answer is held against what it may be. Each group that took effect tells its place in the order, so when all is over they are
 * done once more, in that order, by a plain map, which is to answer the same. One that was refused has no place: there is to be a
 * state at which it is refused, between those that the same client saw before and after it. */
#include "plain.h"
#include "trials.h"
#include "wire.h"

#include <stdlib.h>

enum { AT_ONCE_MOST = 16 };

/* A group with what it was answered, and when, by the clock and by the order. */
typedef struct exchange {
    group group;
    outcome told;
    double sent, received;
    uint64_t after, before;
} exchange;

typedef struct talk {
    uint32_t random, keys;
    size_t count;
    exchange *all;
} talk;

static request random_request(talk *t)
{
    static const operation often[] = {GET, GET, PUT, REMOVE, ADD, ADD, TRANSFER, TRANSFER, TRANSFER, COUNT};
    request r = {often[below(&t->random, sizeof often / sizeof *often)], below(&t->random, t->keys), 0, below(&t->random, 50)};
    if (r.operation == TRANSFER) r.to = below(&t->random, t->keys);
    if (r.operation == ADD && below(&t->random, 3) == 0) r.amount = -r.amount;
    if (r.operation == ADD && below(&t->random, 40) == 0) r.amount = INT64_MAX - 9;
    return r;
}

static group random_group(talk *t)
{
    group g = {.count = below(&t->random, 2) ? 1 : 2 + below(&t->random, GROUP_MOST - 1)};
    for (size_t i = 0; i < g.count; i++) g.requests[i] = random_request(t);
    return g;
}

/* Sends some groups at once, and takes their answers. */
static void exchange_some(talk *t, const wire *w, exchange *some, size_t count)
{
    group groups[AT_ONCE_MOST];
    for (size_t i = 0; i < count; i++) groups[i] = random_group(t);
    double sent = now();
    wire_groups(w, groups, count);
    for (size_t i = 0; i < count; i++) {
        some[i] = (exchange){.group = groups[i], .sent = sent, .told = wire_outcome(w, &groups[i])};
        some[i].received = now();
    }
}

/* Writes down between which places each one lies: those of the same connection do not fall. */
static void bound(talk *t)
{
    uint64_t place = 0;
    for (size_t i = 0; i < t->count; i++) {
        exchange *e = &t->all[i];
        e->after = place;
        if (e->told.ending != TOOK_EFFECT) continue;
        if (e->told.place < place) fail("a later request of the same client stands at an earlier place");
        place = e->told.place;
    }
    place = UINT64_MAX - 1;
    for (size_t i = t->count; i-- > 0;) {
        t->all[i].before = place;
        if (t->all[i].told.ending == TOOK_EFFECT) place = t->all[i].told.place;
    }
}

static void *talk_thread(void *given)
{
    talk *t = given;
    wire w = wire_open();
    for (size_t done = 0, more; done < t->count; done += more) {
        more = 1 + below(&t->random, AT_ONCE_MOST);
        if (more > t->count - done) more = t->count - done;
        exchange_some(t, &w, t->all + done, more);
    }
    wire_close(&w);
    bound(t);
    return NULL;
}

static bool same(const outcome *one, const outcome *other, size_t count)
{
    if (one->ending != other->ending) return false;
    if (one->ending == WAS_REFUSED) return one->refused == other->refused && one->answers[one->refused].kind == other->answers[one->refused].kind;
    for (size_t i = 0; i < count; i++)
        if (one->answers[i].kind != other->answers[i].kind || one->answers[i].value != other->answers[i].value) return false;
    return true;
}

static bool answers_same(plain *model, const exchange *e)
{
    outcome is = {.ending = TOOK_EFFECT};
    plain_run(model, &e->group, &is);
    return same(&is, &e->told, e->group.count);
}

static bool wrote(const exchange *e)
{
    for (size_t i = 0; i < e->group.count; i++)
        switch (e->group.requests[i].operation) {
        case GET:
        case COUNT: break;
        case REMOVE:
            if (e->told.answers[i].kind == IS_ABSENT) break;
            return true;
        case PUT:
        case ADD:
        case TRANSFER: return true;
        }
    return false;
}

/* By the places. Those that only read have the place of the last one of which they see what it wrote. */
static int by_place(const void *one, const void *other)
{
    const exchange *x = *(exchange *const *)one, *y = *(exchange *const *)other;
    if (x->told.place != y->told.place) return x->told.place < y->told.place ? -1 : 1;
    if (wrote(x) != wrote(y)) return wrote(x) ? -1 : 1;
    return (x->sent > y->sent) - (x->sent < y->sent);
}

static int by_begin(const void *one, const void *other)
{
    const exchange *x = *(exchange *const *)one, *y = *(exchange *const *)other;
    return (x->after > y->after) - (x->after < y->after);
}

typedef struct review {
    plain *model;
    size_t done, refused, begun, open;
    exchange **all_done, **all_refused, **all_open;
} review;

/* Holds those that were refused against the state that is there up to the place `until`. */
static void see_refused(review *r, uint64_t until)
{
    while (r->begun < r->refused && r->all_refused[r->begun]->after < until) r->all_open[r->open++] = r->all_refused[r->begun++];
    size_t left = 0;
    for (size_t i = 0; i < r->open; i++) {
        bool is_well = answers_same(r->model, r->all_open[i]);
        plain_undo(r->model);
        if (is_well) continue;
        if (r->all_open[i]->before < until) fail("a group was refused that nothing refuses");
        r->all_open[left++] = r->all_open[i];
    }
    r->open = left;
}

/* Does all once more, in their order. */
static void replay(review *r)
{
    double latest = 0;
    for (size_t i = 0; i < r->done; i++) {
        const exchange *e = r->all_done[i];
        if (e->received < latest) fail("what was answered before another was asked stands behind it");
        if (e->sent > latest) latest = e->sent;
        if (i == 0 || e->told.place > r->all_done[i - 1]->told.place) see_refused(r, e->told.place);
        if (!answers_same(r->model, e)) fail("an answer at the place %llu cannot be", (unsigned long long)e->told.place);
    }
    see_refused(r, UINT64_MAX);
}

static void split(review *r, talk *talks, size_t connections)
{
    for (size_t t = 0; t < connections; t++)
        for (size_t i = 0; i < talks[t].count; i++) {
            exchange *e = &talks[t].all[i];
            if (e->told.ending == TOOK_EFFECT) r->all_done[r->done++] = e;
            else r->all_refused[r->refused++] = e;
        }
    qsort(r->all_done, r->done, sizeof *r->all_done, by_place);
    qsort(r->all_refused, r->refused, sizeof *r->all_refused, by_begin);
}

/* The keys that are there at the end are those of the model. */
static void see_end(const review *r, uint32_t keys)
{
    wire w = wire_open();
    for (uint32_t key = 0; key < keys; key++) {
        int64_t value = 0;
        bool is_there = plain_get(r->model, key, &value);
        group g = only((request){.operation = GET, .key = key});
        answer told = wire_ask(&w, &g).answers[0];
        if (told.kind != (is_there ? IS_VALUE : IS_ABSENT) || told.value != value) fail("at the end the key %u is not what it ought to be", key);
    }
    group g = only((request){.operation = COUNT});
    if (wire_ask(&w, &g).answers[0].value != (int64_t)plain_count(r->model)) fail("at the end the count is wrong");
    wire_close(&w);
}

static void *allocate(size_t count, size_t size)
{
    void *at = calloc(count, size);
    if (!at) fail("memory is wanting");
    return at;
}

void check(size_t connections, size_t groups, uint32_t keys, uint32_t seed)
{
    /* (a few keys more than there is room for, so that some are refused) */
    uint32_t most = keys + keys / 8 + 1;
    talk *talks = allocate(connections, sizeof *talks);
    size_t all = connections * groups;
    for (size_t i = 0; i < connections; i++)
        talks[i] = (talk){.random = seed + (uint32_t)i * 2654435761u, .keys = most, .count = groups, .all = allocate(groups, sizeof(exchange))};
    on_threads(connections, talk_thread, talks, sizeof *talks);
    review r = {.model = plain_new(keys), .all_done = allocate(all, sizeof(exchange *)), .all_refused = allocate(all, sizeof(exchange *)),
                .all_open = allocate(all, sizeof(exchange *))};
    if (!r.model) fail("memory is wanting");
    split(&r, talks, connections);
    replay(&r);
    see_end(&r, most);
    printf("check: %zu groups took effect, %zu were refused: each answer is one that may be\n", r.done, r.refused);
    for (size_t i = 0; i < connections; i++) free(talks[i].all);
    plain_free(r.model);
    free(r.all_done), free(r.all_refused), free(r.all_open), free(talks);
}
