#define _GNU_SOURCE
#include "wire.h"

#include <arpa/inet.h>
#include <netinet/tcp.h>
#include <pthread.h>
#include <stdarg.h>
#include <stdlib.h>
#include <string.h>
#include <sys/socket.h>
#include <sys/time.h>
#include <time.h>
#include <unistd.h>

static struct sockaddr_in server;

void fail(const char *form, ...)
{
    va_list list;
    va_start(list, form);
    fputs("client: ", stderr);
    vfprintf(stderr, form, list);
    fputc('\n', stderr);
    va_end(list);
    exit(1);
}

void wire_port(uint16_t port)
{
    server = (struct sockaddr_in){.sin_family = AF_INET, .sin_port = htons(port), .sin_addr.s_addr = htonl(INADDR_LOOPBACK)};
}

wire wire_open(void)
{
    wire w = {.socket = socket(AF_INET, SOCK_STREAM | SOCK_CLOEXEC, 0)};
    if (w.socket < 0 || connect(w.socket, (struct sockaddr *)&server, sizeof server)) fail("no server answers");
    setsockopt(w.socket, IPPROTO_TCP, TCP_NODELAY, &(int){1}, sizeof(int));
    setsockopt(w.socket, SOL_SOCKET, SO_RCVTIMEO, &(struct timeval){30, 0}, sizeof(struct timeval));
    w.in = fdopen(w.socket, "r");
    if (!w.in) fail("memory is wanting");
    return w;
}

void wire_close(wire *w) { fclose(w->in); }

void wire_send(const wire *w, const char *text, size_t length)
{
    while (length > 0) {
        ssize_t n = send(w->socket, text, length, MSG_NOSIGNAL);
        if (n < 0) fail("the server does not listen any more");
        text += n;
        length -= (size_t)n;
    }
}

void wire_groups(const wire *w, const group *groups, size_t count)
{
    char *text = malloc(count * TEXT_MOST);
    size_t length = 0;
    if (!text) fail("memory is wanting");
    for (size_t i = 0; i < count; i++) length += group_write(&groups[i], text + length);
    wire_send(w, text, length);
    free(text);
}

bool wire_line(const wire *w, char line[LINE_MOST])
{
    if (!fgets(line, LINE_MOST, w->in)) return false;
    size_t length = strlen(line);
    if (length == 0 || line[length - 1] != '\n') fail("the server sent no line: %s", line);
    line[length - 1] = '\0';
    return true;
}

outcome wire_outcome(const wire *w, const group *g)
{
    outcome told = {.ending = TOOK_EFFECT};
    for (size_t i = 0; i < g->count && told.ending == TOOK_EFFECT; i++) {
        char line[LINE_MOST];
        if (!wire_line(w, line)) fail("no answer came");
        if (!outcome_read(line, i, &told)) fail("no answer that may be: %s", line);
    }
    if (told.ending == WAS_REFUSED && told.refused >= g->count) fail("refused a request that was not asked");
    return told;
}

outcome wire_ask(const wire *w, const group *g)
{
    wire_groups(w, g, 1);
    return wire_outcome(w, g);
}

group only(request r) { return (group){.count = 1, .requests = {r}}; }

uint32_t below(uint32_t *random, uint32_t n)
{
    *random = *random * 1664525u + 1013904223u;
    return (*random >> 8) % n;
}

void on_threads(size_t count, void *(*work)(void *), void *given, size_t size)
{
    pthread_t *threads = calloc(count, sizeof *threads);
    if (!threads) fail("memory is wanting");
    for (size_t i = 0; i < count; i++)
        if (pthread_create(&threads[i], NULL, work, (char *)given + i * size)) fail("no thread can be made");
    for (size_t i = 0; i < count; i++) pthread_join(threads[i], NULL);
    free(threads);
}

double now(void)
{
    struct timespec t;
    clock_gettime(CLOCK_MONOTONIC, &t);
    return (double)t.tv_sec + (double)t.tv_nsec * 1e-9;
}
