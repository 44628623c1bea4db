/* What objects are, one transaction at a time: a model that shares nothing with the library. */
#ifndef MODEL_H
#define MODEL_H

#include <stdbool.h>
#include <stdint.h>

#include "sto.h"

enum { OBJECTS = 9, FIRST_TREE = 6, TREES = 2, KEYS_MOST = 32 };

/* The operation by which the model notes a walk of a tree from a, with room for b pairs. */
enum { WALK = 1000 };

/* The objects of each run, in the order of sto.h. */
extern const sto_shape shapes[OBJECTS];

/* What an object holds: pairs in the order of their keys. A box and a counter have one, with the key 0. */
typedef struct content {
    uint32_t count;
    sto_pair pairs[KEYS_MOST];
} content;

typedef struct model {
    content objects[OBJECTS];
} model;

/* An answer, with the pairs of a scan. */
typedef struct answered {
    sto_reply reply;
    uint32_t count;
    sto_pair pairs[KEYS_MOST];
} answered;

model model_new(void);

/* Whether an object takes a call. */
bool model_takes(sto_call call);

/* How many numbers its operation wants of its object, which takes it. */
uint32_t model_wants(sto_call call);

/* Makes a call that is taken. */
answered model_ask(model *, sto_call call);

/* Whether a call that was so answered has changed something. */
bool model_wrote(sto_call call, sto_reply reply);

#endif
