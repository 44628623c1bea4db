/* A plain map that does groups of requests one after the other: what lies behind the one lock, and what the client holds the answers
 * of a server against. */
#ifndef PLAIN_H
#define PLAIN_H

#include "request.h"

typedef struct plain plain;

plain *plain_new(uint32_t keys); /* NULL where memory is wanting */
void plain_free(plain *);

/* Does a group, or nothing of it. It writes all of the outcome but the place. */
void plain_run(plain *, const group *, outcome *);

/* Puts back what the last group changed. */
void plain_undo(plain *);

bool plain_get(const plain *, int64_t key, int64_t *value);
size_t plain_count(const plain *);

#endif
