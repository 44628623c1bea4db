#include "model.h"

#include <string.h>

const sto_shape shapes[OBJECTS] = {
    {.kind = STO_BOX, .value = 5},
    {.kind = STO_BOX, .value = -7},
    {.kind = STO_COUNTER, .value = 3},
    {.kind = STO_COUNTER, .value = INT64_MAX - 2},
    {.kind = STO_ARRAY, .size = 4, .value = 1},
    {.kind = STO_HASH, .size = 3, .places = 2},
    {.kind = STO_TREE, .size = 3},
    {.kind = STO_TREE, .size = 7},
    {.kind = STO_VECTOR, .size = 4},
};

static const sto_reply done = {STO_DONE, 0, 0}, absent = {STO_ABSENT, 0, 0}, full = {STO_FULL, 0, 0}, range = {STO_RANGE, 0, 0};

static sto_reply value(int64_t v) { return (sto_reply){STO_VALUE, 0, v}; }
static sto_reply flag(bool is) { return (sto_reply){STO_FLAG, 0, is}; }

model model_new(void)
{
    model m;
    memset(&m, 0, sizeof m);
    for (int o = 0; o < OBJECTS; o++) {
        uint32_t kind = shapes[o].kind;
        m.objects[o].count = kind <= STO_COUNTER ? 1 : kind == STO_ARRAY ? shapes[o].size : 0;
        for (uint32_t i = 0; i < m.objects[o].count; i++) m.objects[o].pairs[i] = (sto_pair){i, shapes[o].value};
    }
    return m;
}

bool model_takes(sto_call call)
{
    static const uint32_t taken[] = {
        [STO_BOX] = 1 << STO_GET | 1 << STO_SET,
        [STO_COUNTER] = 1 << STO_GET | 1 << STO_ADD | 1 << STO_TEST | 1 << STO_TAKE,
        [STO_ARRAY] = 1 << STO_GET | 1 << STO_SET | 1 << STO_ADD,
        [STO_HASH] = 1 << STO_GET | 1 << STO_PUT | 1 << STO_REMOVE | 1 << STO_HAS | 1 << STO_LEN,
        [STO_TREE] = 1 << STO_GET | 1 << STO_PUT | 1 << STO_REMOVE | 1 << STO_LEN | 1 << STO_NEXT | 1 << STO_COUNT | 1 << STO_SCAN,
        [STO_VECTOR] = 1 << STO_GET | 1 << STO_TEST | 1 << STO_LEN | 1 << STO_PUSH | 1 << STO_POP,
    };
    if (call.operation > STO_POP || !(taken[shapes[call.object].kind] >> call.operation & 1)) return false;
    return call.operation != STO_TEST || (call.a >= STO_EQ && call.a <= STO_GE);
}

uint32_t model_wants(sto_call call)
{
    bool has_places = shapes[call.object].kind != STO_BOX && shapes[call.object].kind != STO_COUNTER;
    switch (call.operation) {
    case STO_GET: return has_places;
    case STO_SET:
    case STO_ADD: return 1 + has_places;
    case STO_LEN:
    case STO_POP: return 0;
    case STO_TEST:
    case STO_PUT:
    case STO_COUNT:
    case STO_SCAN: return 2;
    default: return 1;
    }
}

bool model_wrote(sto_call call, sto_reply reply)
{
    return reply.answer == STO_DONE || (reply.answer == STO_FLAG && reply.value && (call.operation == STO_TAKE || call.operation == STO_REMOVE)) ||
           (reply.answer == STO_VALUE && call.operation == STO_POP);
}

/* Where a key stands, or would. */
static uint32_t place_of(const content *c, int64_t key)
{
    uint32_t at = 0;
    while (at < c->count && c->pairs[at].key < key) at++;
    return at;
}

static bool has(const content *c, int64_t key)
{
    uint32_t at = place_of(c, key);
    return at < c->count && c->pairs[at].key == key;
}

static sto_reply put(content *c, int64_t key, int64_t v, bool is_full)
{
    uint32_t at = place_of(c, key);
    if (!has(c, key)) {
        if (is_full) return full;
        memmove(&c->pairs[at + 1], &c->pairs[at], (c->count++ - at) * sizeof *c->pairs);
    }
    c->pairs[at] = (sto_pair){key, v};
    return done;
}

static bool take_out(content *c, int64_t key)
{
    uint32_t at = place_of(c, key);
    if (!has(c, key)) return false;
    memmove(&c->pairs[at], &c->pairs[at + 1], (--c->count - at) * sizeof *c->pairs);
    return true;
}

static sto_reply shown(const content *c, int64_t key) { return has(c, key) ? value(c->pairs[place_of(c, key)].value) : absent; }

static bool compares(int64_t how, int64_t x, int64_t y)
{
    switch (how) {
    case STO_EQ: return x == y;
    case STO_NE: return x != y;
    case STO_LT: return x < y;
    case STO_LE: return x <= y;
    case STO_GT: return x > y;
    default: return x >= y;
    }
}

static sto_reply add(content *c, int64_t key, int64_t more)
{
    if (!has(c, key)) return absent;
    int64_t *v = &c->pairs[place_of(c, key)].value;
    return __builtin_add_overflow(*v, more, v) ? (*v = (int64_t)((uint64_t)*v - (uint64_t)more), range) : done;
}

static sto_reply take(int64_t *v, int64_t amount)
{
    int64_t left;
    if (*v < amount) return flag(false);
    if (__builtin_sub_overflow(*v, amount, &left)) return range;
    *v = left;
    return flag(true);
}

static sto_reply pop(content *c)
{
    return c->count ? value(c->pairs[--c->count].value) : absent;
}

static bool bucket_is_full(const content *c, const sto_shape *s, int64_t key)
{
    int64_t m = s->size;
    uint32_t beside = 0;
    for (uint32_t i = 0; i < c->count; i++) beside += (c->pairs[i].key % m + m) % m == (key % m + m) % m;
    return beside >= s->places;
}

static bool is_full(const content *c, const sto_shape *s, int64_t key)
{
    return s->kind == STO_TREE ? c->count >= 4 * s->size : bucket_is_full(c, s, key);
}

static answered scan(const content *c, int64_t first, int64_t last)
{
    answered all = {{STO_PAIRS, 0, 0}, 0, {{0, 0}}};
    for (uint32_t i = 0; i < c->count; i++)
        if (c->pairs[i].key >= first && c->pairs[i].key <= last) all.pairs[all.count++] = c->pairs[i];
    all.reply.value = all.count;
    return all;
}

static answered walk(const content *c, int64_t from, int64_t room)
{
    answered all = scan(c, from, INT64_MAX);
    if (all.count > room) all.reply.value = all.count = (uint32_t)room;
    return all;
}

answered model_ask(model *m, sto_call call)
{
    content *c = &m->objects[call.object];
    const sto_shape *s = &shapes[call.object];
    int64_t a = call.a, b = call.b, of = s->kind <= STO_COUNTER ? 0 : a;
    uint32_t next = place_of(c, a);
    switch (call.operation) {
    case STO_GET: return (answered){.reply = shown(c, of)};
    case STO_SET: return (answered){.reply = has(c, of) ? put(c, of, s->kind == STO_BOX ? a : b, false) : absent};
    case STO_ADD: return (answered){.reply = add(c, of, s->kind == STO_COUNTER ? a : b)};
    case STO_TEST: return (answered){.reply = flag(compares(a, s->kind == STO_COUNTER ? c->pairs[0].value : c->count, b))};
    case STO_TAKE: return (answered){.reply = take(&c->pairs[0].value, a)};
    case STO_PUT: return (answered){.reply = put(c, a, b, is_full(c, s, a))};
    case STO_REMOVE: return (answered){.reply = flag(take_out(c, a))};
    case STO_HAS: return (answered){.reply = flag(has(c, a))};
    case STO_LEN: return (answered){.reply = value(c->count)};
    case STO_NEXT: return (answered){.reply = next < c->count ? value(c->pairs[next].key) : absent};
    case STO_COUNT: return (answered){.reply = value(scan(c, a, b).count)};
    case STO_SCAN: return scan(c, a, b);
    case WALK: return walk(c, a, b);
    case STO_PUSH: return (answered){.reply = c->count < s->size ? put(c, c->count, a, false) : full};
    default: return (answered){.reply = pop(c)};
    }
}
