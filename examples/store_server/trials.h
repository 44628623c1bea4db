/* What the client can do. Each ends the client with status 1 where the server is not as it ought to be. */
#ifndef TRIALS_H
#define TRIALS_H

#include <stddef.h>
#include <stdint.h>

/* Random groups on a server that was just begun with room for so many keys. Every answer is held against what it may be. */
void check(size_t connections, size_t groups, uint32_t keys, uint32_t seed);

/* Requests that cannot be read. */
void be_malformed(void);

/* Clients that go in the middle, that do not take their answers, that say nothing. */
void vanish(void);

/* Transfers, gets and sums as fast as it goes: each connection sends `depth` groups at once, and then takes their answers. */
void load(size_t connections, size_t groups, size_t depth);

#endif
