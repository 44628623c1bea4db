/* A key/value server on loopback: server [--port N] [--keys N] [--threads N] [--one-lock]
 *
 * A pool of threads serves all connections: whichever thread is free takes the next one on which something has come, does it, and
 * lets go of the connection. So a client that is slow, silent or gone holds no thread. It ends by SIGINT or SIGTERM. */
#define _GNU_SOURCE
#include <arpa/inet.h>
#include <errno.h>
#include <netinet/tcp.h>
#include <pthread.h>
#include <signal.h>
#include <stdio.h>
#include <stdlib.h>
#include <string.h>
#include <sys/epoll.h>
#include <sys/eventfd.h>
#include <sys/socket.h>
#include <time.h>
#include <unistd.h>

#include "connection.h"

enum { CONNECTIONS_MOST = 256, THREADS_MOST = 64, UNSENT_MOST = 1 << 16 };

typedef struct options {
    uint32_t port, keys, threads;
    const engine *engine;
} options;

static options chosen = {.keys = 10000, .threads = 4, .engine = &transactions};
static int epoll, listener, stop;
static connection connections[CONNECTIONS_MOST];

static void fail(const char *what)
{
    perror(what);
    exit(1);
}

/* What an event is about: a connection, the listener or the stop. Each is told to one thread, and then waits to be watched again,
 * but the stop, which all threads are to see. */
static void watch(int how, int descriptor, uint32_t events, void *what)
{
    struct epoll_event event = {.events = events, .data.ptr = what};
    if (epoll_ctl(epoll, how, descriptor, &event)) fail("epoll_ctl");
}

static connection *take_connection(void)
{
    for (size_t i = 0; i < CONNECTIONS_MOST; i++)
        if (!atomic_exchange(&connections[i].is_taken, true)) return &connections[i];
    return NULL;
}

static void drop(connection *c)
{
    close(c->socket);
    atomic_store(&c->is_taken, false);
}

static void accept_one(void)
{
    int socket = accept4(listener, NULL, NULL, SOCK_NONBLOCK | SOCK_CLOEXEC);
    if (socket >= 0) {
        connection *c = take_connection();
        setsockopt(socket, IPPROTO_TCP, TCP_NODELAY, &(int){1}, sizeof(int));
        if (c) {
            pthread_mutex_lock(&c->lock);
            connection_begin(c, socket);
            watch(EPOLL_CTL_ADD, socket, EPOLLIN | EPOLLONESHOT, c);
            pthread_mutex_unlock(&c->lock);
        } else {
            static const char full[] = "error too many connections\n";
            send(socket, full, sizeof full - 1, MSG_NOSIGNAL);
            close(socket);
        }
    } else if (errno == EMFILE || errno == ENFILE || errno == ENOMEM) {
        /* (until some connection is closed, the same would come at once) */
        nanosleep(&(struct timespec){0, 10000000}, NULL);
    }
    watch(EPOLL_CTL_MOD, listener, EPOLLIN | EPOLLONESHOT, &listener);
}

/* (One thread has a connection at a time. The lock tells C so, and keeps the next one off until this one is through with watch.) */
static void serve(connection *c)
{
    pthread_mutex_lock(&c->lock);
    switch (connection_serve(c, chosen.engine)) {
    case WANTS_TO_READ: watch(EPOLL_CTL_MOD, c->socket, EPOLLIN | EPOLLONESHOT, c); break;
    case WANTS_TO_WRITE: watch(EPOLL_CTL_MOD, c->socket, EPOLLOUT | EPOLLONESHOT, c); break;
    case IS_OVER: drop(c); break;
    }
    pthread_mutex_unlock(&c->lock);
}

static void *pool_thread(void *given)
{
    struct epoll_event event;
    for (;;) {
        int count = epoll_wait(epoll, &event, 1, -1);
        if (count < 0 && errno != EINTR) fail("epoll_wait");
        if (count < 1) continue;
        if (event.data.ptr == &stop) return given;
        if (event.data.ptr == &listener) accept_one();
        else serve(event.data.ptr);
    }
}

static void listen_on_loopback(void)
{
    struct sockaddr_in at = {.sin_family = AF_INET, .sin_port = htons((uint16_t)chosen.port), .sin_addr.s_addr = htonl(INADDR_LOOPBACK)};
    socklen_t size = sizeof at;
    listener = socket(AF_INET, SOCK_STREAM | SOCK_NONBLOCK | SOCK_CLOEXEC, 0);
    if (listener < 0 || setsockopt(listener, SOL_SOCKET, SO_REUSEADDR, &(int){1}, sizeof(int))) fail("socket");
    /* (connections have it from here: so many answers are kept for a client that does not take them) */
    if (setsockopt(listener, SOL_SOCKET, SO_SNDBUF, &(int){UNSENT_MOST}, sizeof(int))) fail("socket");
    if (bind(listener, (struct sockaddr *)&at, size) || listen(listener, SOMAXCONN)) fail("listen");
    if (getsockname(listener, (struct sockaddr *)&at, &size)) fail("getsockname");
    printf("listening on 127.0.0.1:%u\n", ntohs(at.sin_port));
    fflush(stdout);
}

/* The signals that end the server: all threads leave them to the first one. */
static sigset_t block_signals(void)
{
    sigset_t signals;
    sigemptyset(&signals);
    sigaddset(&signals, SIGINT);
    sigaddset(&signals, SIGTERM);
    pthread_sigmask(SIG_BLOCK, &signals, NULL);
    return signals;
}

/* Runs the pool until one of them comes. */
static void serve_until(const sigset_t *signals)
{
    pthread_t pool[THREADS_MOST];
    epoll = epoll_create1(EPOLL_CLOEXEC);
    stop = eventfd(0, EFD_CLOEXEC);
    if (epoll < 0 || stop < 0) fail("epoll");
    for (size_t i = 0; i < CONNECTIONS_MOST; i++) pthread_mutex_init(&connections[i].lock, NULL);
    watch(EPOLL_CTL_ADD, stop, EPOLLIN, &stop);
    watch(EPOLL_CTL_ADD, listener, EPOLLIN | EPOLLONESHOT, &listener);
    for (uint32_t i = 0; i < chosen.threads; i++) {
        errno = pthread_create(&pool[i], NULL, pool_thread, NULL);
        if (errno) fail("pthread_create");
    }
    sigwait(signals, &(int){0});
    if (eventfd_write(stop, 1)) fail("eventfd");
    for (uint32_t i = 0; i < chosen.threads; i++) pthread_join(pool[i], NULL);
    for (size_t i = 0; i < CONNECTIONS_MOST; i++)
        if (atomic_load(&connections[i].is_taken)) drop(&connections[i]);
    close(listener), close(epoll), close(stop);
}

static bool read_number(const char *text, uint32_t least, uint32_t most, uint32_t *number)
{
    char *end;
    if (!text || *text < '0' || *text > '9') return false;
    errno = 0;
    unsigned long read = strtoul(text, &end, 10);
    *number = (uint32_t)read;
    return !*end && !errno && read >= least && read <= most;
}

static bool read_options(char **word)
{
    for (; *word; word++) {
        bool is_well = false;
        if (!strcmp(*word, "--one-lock")) chosen.engine = &one_lock, is_well = true;
        else if (!strcmp(*word, "--port")) is_well = read_number(*++word, 0, 65535, &chosen.port);
        else if (!strcmp(*word, "--keys")) is_well = read_number(*++word, 1, 1 << 24, &chosen.keys);
        else if (!strcmp(*word, "--threads")) is_well = read_number(*++word, 1, THREADS_MOST, &chosen.threads);
        if (!is_well) return false;
    }
    return true;
}

int main(int count, char **words)
{
    if (count < 1 || !read_options(words + 1)) {
        fprintf(stderr, "server [--port N] [--keys N] [--threads 1..%d] [--one-lock]\n", THREADS_MOST);
        return 2;
    }
    const char *why = chosen.engine->open(chosen.keys, chosen.threads);
    if (why) {
        fprintf(stderr, "%s\n", why);
        return 1;
    }
    sigset_t signals = block_signals();
    listen_on_loopback();
    clock_t began = clock();
    serve_until(&signals);
    printf("%.3f s of processor\n", (double)(clock() - began) / CLOCKS_PER_SEC);
    return !chosen.engine->close();
}
