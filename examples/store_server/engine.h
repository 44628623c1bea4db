/* What does the requests of the server: transactions, or the same over one lock. */
#ifndef ENGINE_H
#define ENGINE_H

#include "request.h"

typedef struct engine {
    const char *name;
    /* Begins with no keys, and room for so many, on so many threads. Answers why it cannot, else NULL. */
    const char *(*open)(uint32_t keys, uint32_t threads);
    /* Does a group, on any thread. */
    void (*run)(const group *, outcome *);
    /* Ends, and prints what there was. Answers whether all is as it ought to be. */
    bool (*close)(void);
} engine;

extern const engine transactions, one_lock;

#endif
