/* What a client may ask, what it is answered, and how both are written in lines of text. */
#ifndef REQUEST_H
#define REQUEST_H

#include <stdbool.h>
#include <stddef.h>
#include <stdint.h>

enum {
    GROUP_MOST = 16, /* requests of one transaction */
    LINE_MOST = 128, /* bytes of a line that these programs write */
    TEXT_MOST = (GROUP_MOST + 1) * LINE_MOST
};

typedef enum operation { GET, PUT, REMOVE, ADD, TRANSFER, COUNT } operation;

typedef struct request {
    operation operation;
    int64_t key, to; /* `to` is of a transfer only */
    int64_t amount;  /* the value of a put, and the amount of an add and of a transfer */
} request;

/* Requests that take effect as one transaction, or not at all. */
typedef struct group {
    size_t count;
    request requests[GROUP_MOST];
} group;

typedef enum answer_kind {
    IS_VALUE,  /* of a get, an add and a count */
    IS_ABSENT, /* of a get and a remove: there is no such key */
    IS_DONE,   /* of a put, a remove and a transfer */
    IS_SHORT,  /* refused: the key has less than the amount of the transfer */
    IS_FULL,   /* refused: the store has as many keys as it has room for */
    IS_RANGE   /* refused: the sum is no number of 64 bits */
} answer_kind;

typedef struct answer {
    answer_kind kind;
    int64_t value;
} answer;

static inline bool is_refusal(answer a) { return a.kind >= IS_SHORT; }

typedef enum ending {
    TOOK_EFFECT,
    WAS_REFUSED, /* one request was, so nothing of the group took effect */
    HAS_FAILED   /* the server could not do it, or could not read it: nothing took effect */
} ending;

typedef struct outcome {
    ending ending;
    answer answers[GROUP_MOST]; /* those of all requests, or those up to the one that was refused */
    size_t refused;             /* which one that is, from 0 */
    uint64_t place;             /* where the group stands in the order of all transactions, where it took effect */
    const char *reason;         /* why it failed */
} outcome;

/* Reads a request. Where the line is none it answers why, else NULL. */
const char *request_read(const char *line, request *to);

/* Whether the line begins a group, `together COUNT`. A count that is none of 1 to GROUP_MOST is told as 0. */
bool group_begins(const char *line, size_t *count);

/* These write text of up to TEXT_MOST bytes, and answer its length. */
size_t group_write(const group *, char *to);
size_t outcome_write(const outcome *, size_t count, char *to);

/* Reads one line of a reply. Answers false where it is none. */
bool outcome_read(const char *line, size_t at, outcome *to);

#endif
