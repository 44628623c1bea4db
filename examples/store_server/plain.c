#include "plain.h"

#include <stdlib.h>

typedef struct entry {
    bool is_there;
    int64_t key, value;
} entry;

/* A table with open places: a key lies at its own place or at one of the next, with no empty one between. */
struct plain {
    size_t keys, count, mask;
    entry *entries;
    size_t changes; /* what the last group has changed, to be put back where a request of it is refused */
    entry before[2 * GROUP_MOST];
};

plain *plain_new(uint32_t keys)
{
    plain *p = calloc(1, sizeof *p);
    size_t room = 16;
    while (room < 2 * (size_t)keys) room *= 2;
    if (p) *p = (plain){.keys = keys, .mask = room - 1, .entries = calloc(room, sizeof *p->entries)};
    if (p && p->entries) return p;
    free(p);
    return NULL;
}

void plain_free(plain *p)
{
    if (!p) return;
    free(p->entries);
    free(p);
}

static size_t home_of(const plain *p, int64_t key)
{
    uint64_t mixed = (uint64_t)key * 0x9E3779B97F4A7C15u;
    return (size_t)(mixed >> 32) & p->mask;
}

/* The entry of a key, or the empty one at which it would lie. */
static size_t find(const plain *p, int64_t key)
{
    size_t at = home_of(p, key);
    while (p->entries[at].is_there && p->entries[at].key != key) at = (at + 1) & p->mask;
    return at;
}

bool plain_get(const plain *p, int64_t key, int64_t *value)
{
    const entry *e = &p->entries[find(p, key)];
    if (e->is_there) *value = e->value;
    return e->is_there;
}

size_t plain_count(const plain *p) { return p->count; }

static void set(plain *p, int64_t key, int64_t value)
{
    entry *e = &p->entries[find(p, key)];
    p->count += !e->is_there;
    *e = (entry){true, key, value};
}

/* Takes a key out, and closes the gap: what lies behind it moves up, where its own place allows it. */
static void clear(plain *p, int64_t key)
{
    size_t gap = find(p, key);
    if (!p->entries[gap].is_there) return;
    for (size_t at = (gap + 1) & p->mask; p->entries[at].is_there; at = (at + 1) & p->mask) {
        size_t home = home_of(p, p->entries[at].key);
        if (((at - home) & p->mask) < ((at - gap) & p->mask)) continue;
        p->entries[gap] = p->entries[at];
        gap = at;
    }
    p->entries[gap].is_there = false;
    p->count--;
}

static void remember(plain *p, int64_t key)
{
    entry *before = &p->before[p->changes++];
    before->key = key;
    before->is_there = plain_get(p, key, &before->value);
}

void plain_undo(plain *p)
{
    while (p->changes > 0) {
        const entry *before = &p->before[--p->changes];
        if (before->is_there) set(p, before->key, before->value);
        else clear(p, before->key);
    }
}

static answer put(plain *p, int64_t key, int64_t value)
{
    int64_t old;
    if (!plain_get(p, key, &old) && p->count >= p->keys) return (answer){.kind = IS_FULL};
    remember(p, key);
    set(p, key, value);
    return (answer){.kind = IS_DONE};
}

static answer add(plain *p, int64_t key, int64_t amount)
{
    int64_t sum = 0;
    plain_get(p, key, &sum);
    if (__builtin_add_overflow(sum, amount, &sum)) return (answer){.kind = IS_RANGE};
    answer told = put(p, key, sum);
    return is_refusal(told) ? told : (answer){IS_VALUE, sum};
}

static answer transfer(plain *p, const request *r)
{
    int64_t has;
    if (!plain_get(p, r->key, &has) || has < r->amount) return (answer){.kind = IS_SHORT};
    put(p, r->key, has - r->amount);
    answer told = add(p, r->to, r->amount);
    return is_refusal(told) ? told : (answer){.kind = IS_DONE};
}

static answer take_out(plain *p, int64_t key)
{
    int64_t old;
    if (!plain_get(p, key, &old)) return (answer){.kind = IS_ABSENT};
    remember(p, key);
    clear(p, key);
    return (answer){.kind = IS_DONE};
}

static answer get(const plain *p, int64_t key)
{
    answer told = {.kind = IS_VALUE};
    if (!plain_get(p, key, &told.value)) told.kind = IS_ABSENT;
    return told;
}

static answer run(plain *p, const request *r)
{
    switch (r->operation) {
    case GET: return get(p, r->key);
    case PUT: return put(p, r->key, r->amount);
    case REMOVE: return take_out(p, r->key);
    case ADD: return add(p, r->key, r->amount);
    case TRANSFER: return transfer(p, r);
    case COUNT: break;
    }
    return (answer){IS_VALUE, (int64_t)p->count};
}

void plain_run(plain *p, const group *g, outcome *told)
{
    p->changes = 0;
    told->ending = TOOK_EFFECT;
    for (size_t i = 0; i < g->count && told->ending == TOOK_EFFECT; i++) {
        told->answers[i] = run(p, &g->requests[i]);
        if (!is_refusal(told->answers[i])) continue;
        told->ending = WAS_REFUSED;
        told->refused = i;
        plain_undo(p);
    }
}
