/* A connection of the server: what came of it and was not done yet, and what it is still to be sent. */
#ifndef CONNECTION_H
#define CONNECTION_H

#include <pthread.h>
#include <stdatomic.h>

#include "engine.h"

enum { IN_ROOM = 4096, OUT_ROOM = 4 * TEXT_MOST };

typedef struct connection {
    atomic_bool is_taken;
    pthread_mutex_t lock;
    int socket;
    bool is_at_end;    /* the client sends no more */
    bool is_given_up;  /* what it sends is read no more */
    size_t discarded;  /* bytes of that */
    size_t received;   /* bytes of `in` */
    size_t sent, written; /* bytes of `out` */
    size_t wanted;     /* requests of the group that is being read, or 0 between groups */
    group group;
    const char *wrong; /* why a request of it cannot be read */
    char in[IN_ROOM], out[OUT_ROOM];
} connection;

typedef enum next { WANTS_TO_READ, WANTS_TO_WRITE, IS_OVER } next;

void connection_begin(connection *, int socket);

/* Receives, does what can be done, and sends, all without waiting. Answers what is to be waited for. */
next connection_serve(connection *, const engine *);

#endif
