/* Clients as no server wants them. After each of them another client is served as before. */
#include "trials.h"
#include "wire.h"

#include <errno.h>
#include <poll.h>
#include <string.h>
#include <sys/socket.h>
#include <unistd.h>

enum { LONG = 6000, CROWD = 32, DEAF = 4, NOISE = 200, STUCK = 100 /* milliseconds */ };

/* What is sent, with its length where a byte of zero is in it, and how the answers begin: nothing where the server closes then. */
typedef struct mistake {
    const char *sent;
    size_t length;
    const char *answers[3];
} mistake;

static const mistake mistakes[] = {
    {"\n", 0, {"error no such request", "absent"}},
    {"fetch 1\n", 0, {"error no such request", "absent"}},
    {"GET 1\n", 0, {"error no such request", "absent"}},
    {"getter 1\n", 0, {"error no such request", "absent"}},
    {"get\n", 0, {"error a number", "absent"}},
    {"get x\n", 0, {"error a number", "absent"}},
    {"get  1\n", 0, {"error a number", "absent"}},
    {"get +1\n", 0, {"error a number", "absent"}},
    {"get -\n", 0, {"error a number", "absent"}},
    {"get 9223372036854775808\n", 0, {"error a number", "absent"}},
    {"get 1 2\n", 0, {"error the line goes on", "absent"}},
    {"get 1x\n", 0, {"error the line goes on", "absent"}},
    {"get 1\0\n", 7, {"error no such request", "absent"}},
    {"put 1\n", 0, {"error a number", "absent"}},
    {"count 1\n", 0, {"error the line goes on", "absent"}},
    {"transfer 1 2 -3\n", 0, {"error a transfer of less", "absent"}},
    {"get -9223372036854775808\r\n", 0, {"absent", "absent"}},
    {"together 2\nput 1 1\nfetch\n", 0, {"error no such request", "absent"}},
    {"together 2\ntogether 1\nput 1 1\n", 0, {"error no such request", "absent"}},
    {"together 0\n", 0, {"error a group", NULL}},
    {"together 17\n", 0, {"error a group", NULL}},
    {"together -1\n", 0, {"error a group", NULL}},
    {"together\n", 0, {"error a group", NULL}},
    {"together 2 2\n", 0, {"error a group", NULL}},
};

static const char probe[] = "get 1\n";

static void expect(const wire *w, const char *wanted, const char *after)
{
    char line[LINE_MOST] = "the end";
    bool is_there = wire_line(w, line);
    if (wanted ? !is_there || strncmp(line, wanted, strlen(wanted)) : is_there) fail("after %.30s came: %s", after, line);
}

/* A client that behaves is served. */
static void expect_service(void)
{
    wire w = wire_open();
    wire_send(&w, probe, sizeof probe - 1);
    expect(&w, "absent", "a client that went");
    wire_close(&w);
}

static void make_mistake(const mistake *m)
{
    wire w = wire_open();
    wire_send(&w, m->sent, m->length ? m->length : strlen(m->sent));
    /* (what is sent after a group that cannot be read is not done: nobody knows where it belongs) */
    wire_send(&w, m->answers[1] ? probe : "put 1 1\n", m->answers[1] ? sizeof probe - 1 : 8);
    expect(&w, m->answers[0], m->sent);
    expect(&w, m->answers[1], m->sent);
    wire_close(&w);
    expect_service();
}

static void send_long_line(void)
{
    char text[LONG];
    wire w = wire_open();
    memset(text, 'a', sizeof text);
    wire_send(&w, text, sizeof text);
    expect(&w, "error the line is too long", "a long line");
    expect(&w, NULL, "a long line");
    wire_close(&w);
}

/* Random bytes, many of which are such as requests have. The server may answer what it likes, and close. */
static void send_noise(uint32_t seed)
{
    static const char bytes[] = "\n\n\n  0123456789-@\r\t\200getputremovetogether";
    char text[LONG];
    wire w = wire_open();
    for (size_t i = 0; i < sizeof text; i++) text[i] = bytes[below(&seed, sizeof bytes)];
    send(w.socket, text, sizeof text, MSG_NOSIGNAL);
    wire_close(&w);
}

void be_malformed(void)
{
    for (size_t i = 0; i < sizeof mistakes / sizeof *mistakes; i++) make_mistake(&mistakes[i]);
    send_long_line();
    for (uint32_t i = 0; i < NOISE; i++) send_noise(i);
    expect_service();
    printf("malformed: each mistake is told, and the server goes on\n");
}

/* Sends this, and is gone without a look at the answers. */
static void go_after(const char *text, size_t times)
{
    wire w = wire_open();
    for (size_t i = 0; i < times; i++) send(w.socket, text, strlen(text), MSG_NOSIGNAL);
    setsockopt(w.socket, SOL_SOCKET, SO_LINGER, &(struct linger){1, 0}, sizeof(struct linger));
    wire_close(&w);
    expect_service();
}

/* Sends this and no more, which is no whole request: it is not done. */
static void stop_after(const char *text)
{
    wire w = wire_open();
    wire_send(&w, text, strlen(text));
    shutdown(w.socket, SHUT_WR);
    expect(&w, NULL, text);
    wire_close(&w);
    expect_service();
}

/* Sends all and then closes its side: it gets all its answers, and then the end. */
static void close_own_side(void)
{
    wire w = wire_open();
    wire_send(&w, "count\nget 1\n", 12);
    shutdown(w.socket, SHUT_WR);
    expect(&w, "value", "the end of what is sent");
    expect(&w, "absent", "the end of what is sent");
    expect(&w, NULL, "the end of what is sent");
    wire_close(&w);
}

/* Sends and takes no answer, until the server takes no more. */
static void be_deaf(const wire *w)
{
    char text[LONG];
    struct pollfd writable = {.fd = w->socket, .events = POLLOUT};
    setsockopt(w->socket, SOL_SOCKET, SO_RCVBUF, &(int){LONG}, sizeof(int));
    setsockopt(w->socket, SOL_SOCKET, SO_SNDBUF, &(int){LONG}, sizeof(int));
    for (size_t i = 0; i < sizeof text; i++) text[i] = probe[i % (sizeof probe - 1)];
    while (poll(&writable, 1, STUCK) > 0) {
        ssize_t n = send(w->socket, text, sizeof text, MSG_NOSIGNAL | MSG_DONTWAIT);
        if (n < 0 && errno != EAGAIN) fail("the server closed on a client that takes no answers");
    }
}

void vanish(void)
{
    wire silent[CROWD], deaf[DEAF];
    go_after("", 1);
    go_after("put 1 5", 1);
    stop_after("put 1 5");
    stop_after("together 3\nput 1 5\nput 2 5\n");
    go_after("together 3\nput 1 5\nput 2 5\n", 1);
    go_after("get 1\nget 2\ncount\n", 1000);
    close_own_side();
    for (size_t i = 0; i < CROWD; i++) silent[i] = wire_open();
    for (size_t i = 0; i < DEAF; i++) deaf[i] = wire_open();
    for (size_t i = 0; i < DEAF; i++) be_deaf(&deaf[i]);
    expect_service();
    for (size_t i = 0; i < CROWD; i++) wire_close(&silent[i]);
    for (size_t i = 0; i < DEAF; i++) wire_close(&deaf[i]);
    expect_service();
    printf("vanished: nothing is half done, and nobody else waits\n");
}
