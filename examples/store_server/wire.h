/* A client's end of a connection. What goes wrong here ends the client, which says why. */
#ifndef WIRE_H
#define WIRE_H

#include <stdio.h>

#include "request.h"

typedef struct wire {
    int socket;
    FILE *in;
} wire;

/* Ends the client. */
_Noreturn void fail(const char *form, ...) __attribute__((format(printf, 1, 2)));

void wire_port(uint16_t port); /* said once, before all else */
wire wire_open(void);
void wire_close(wire *);
void wire_send(const wire *, const char *text, size_t length);
void wire_groups(const wire *, const group *, size_t count); /* (sent as one) */
bool wire_line(const wire *, char line[LINE_MOST]);          /* false at the end */
outcome wire_outcome(const wire *, const group *);
outcome wire_ask(const wire *, const group *);

/* A group of one request. */
group only(request);

/* A small generator of numbers: one below n. */
uint32_t below(uint32_t *random, uint32_t n);

/* Runs a function on threads 0 to count - 1. */
void on_threads(size_t count, void *(*work)(void *), void *given, size_t size);

double now(void);

#endif
