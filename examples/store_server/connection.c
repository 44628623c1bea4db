#include "connection.h"

#include <errno.h>
#include <string.h>
#include <sys/socket.h>

enum { DISCARDED_MOST = 1 << 20 };

void connection_begin(connection *c, int socket)
{
    c->socket = socket;
    c->is_at_end = c->is_given_up = false;
    c->discarded = c->received = c->sent = c->written = c->wanted = 0;
}

static void reply(connection *c, const outcome *told, size_t count) { c->written += outcome_write(told, count, c->out + c->written); }

static void fail(connection *c, const char *why) { reply(c, &(outcome){.ending = HAS_FAILED, .reason = why}, 0); }

/* Tells a client why it is not understood, and listens no more: where the next request begins is not known. */
static void give_up(connection *c, const char *why)
{
    fail(c, why);
    c->is_given_up = true;
}

static void do_group(connection *c, const engine *e)
{
    outcome told;
    if (c->wrong) {
        fail(c, c->wrong);
    } else {
        e->run(&c->group, &told);
        reply(c, &told, c->group.count);
    }
    c->wanted = 0;
}

static void do_line(connection *c, const engine *e, const char *line)
{
    size_t count = 1;
    if (!c->wanted) {
        bool begins = group_begins(line, &count);
        if (!count) {
            give_up(c, "a group has from 1 to 16 requests");
            return;
        }
        c->wanted = count;
        c->group.count = 0;
        c->wrong = NULL;
        if (begins) return;
    }
    const char *wrong = request_read(line, &c->group.requests[c->group.count++]);
    if (!c->wrong) c->wrong = wrong;
    if (c->group.count == c->wanted) do_group(c, e);
}

/* Does the whole lines, as long as there is room for what they are answered. */
static void do_lines(connection *c, const engine *e)
{
    char *line = c->in, *end;
    while (!c->is_given_up && OUT_ROOM - c->written >= TEXT_MOST && (end = memchr(line, '\n', c->received - (size_t)(line - c->in)))) {
        size_t length = (size_t)(end - line);
        if (length > 0 && line[length - 1] == '\r') length--;
        line[length] = '\0';
        /* (what lies behind a byte of zero would not be seen) */
        do_line(c, e, strlen(line) == length ? line : "");
        line = end + 1;
    }
    c->received -= (size_t)(line - c->in);
    memmove(c->in, line, c->received);
    if (!c->is_given_up && c->received == IN_ROOM && !memchr(c->in, '\n', IN_ROOM)) give_up(c, "the line is too long");
}

static bool would_wait(void) { return errno == EAGAIN || errno == EWOULDBLOCK || errno == EINTR; }

/* Sends what there is. Answers false where the client is gone. */
static bool send_some(connection *c)
{
    if (c->sent < c->written) {
        ssize_t n = send(c->socket, c->out + c->sent, c->written - c->sent, MSG_NOSIGNAL);
        if (n < 0 && !would_wait()) return false;
        if (n > 0) c->sent += (size_t)n;
    }
    if (c->sent == c->written) c->sent = c->written = 0;
    return true;
}

/* Receives what is there. Answers false where the client is gone. */
static bool receive_some(connection *c)
{
    if (c->is_given_up) c->received = 0;
    if (c->is_at_end || c->received == IN_ROOM) return true;
    ssize_t n = recv(c->socket, c->in + c->received, IN_ROOM - c->received, 0);
    if (n < 0) return would_wait();
    c->is_at_end = n == 0;
    c->received += (size_t)n;
    if (c->is_given_up) c->discarded += (size_t)n;
    return c->discarded < DISCARDED_MOST;
}

next connection_serve(connection *c, const engine *e)
{
    /* (a client that does not take its answers is not listened to) */
    if (c->written == 0 && !receive_some(c)) return IS_OVER;
    do {
        if (!c->is_given_up) do_lines(c, e);
        if (!send_some(c)) return IS_OVER;
        if (c->written > 0) return WANTS_TO_WRITE;
        /* (lines may be left for whose answers there was no room) */
    } while (!c->is_given_up && memchr(c->in, '\n', c->received));
    if (c->is_at_end) return IS_OVER;
    if (c->is_given_up) shutdown(c->socket, SHUT_WR);
    return WANTS_TO_READ;
}
