/* A client that holds every answer of the server against what it may be, or measures it. The words are told below. */
#include "trials.h"
#include "wire.h"

#include <errno.h>
#include <stdlib.h>
#include <string.h>

static const char usage[] = "client PORT check [CONNECTIONS [GROUPS [KEYS [SEED]]]]   on a server that was begun with --keys KEYS, and has none yet\n"
                            "client PORT malformed | vanish                           on a server that has no key 1\n"
                            "client PORT load [CONNECTIONS [GROUPS [DEPTH]]]          on a server that has room for 4096 keys\n";

static void end(void)
{
    fputs(usage, stderr);
    exit(2);
}

/* Reads up to four numbers in place of those that stand there. */
static void read_numbers(char **words, unsigned long numbers[4])
{
    for (size_t i = 0; *words; i++, words++) {
        char *rest;
        errno = 0;
        if (i == 4 || **words < '0' || **words > '9') end();
        numbers[i] = strtoul(*words, &rest, 10);
        if (*rest || errno || numbers[i] > 10000000 || (i < 3 && !numbers[i])) end();
    }
}

int main(int count, char **words)
{
    if (count < 3) end();
    unsigned long port[4] = {0};
    read_numbers((char *[]){words[1], NULL}, port);
    if (port[0] > UINT16_MAX) end();
    wire_port((uint16_t)port[0]);
    if (!strcmp(words[2], "check")) {
        unsigned long n[4] = {4, 2000, 40, 1};
        read_numbers(words + 3, n);
        check(n[0], n[1], (uint32_t)n[2], (uint32_t)n[3]);
    } else if (!strcmp(words[2], "load")) {
        unsigned long n[4] = {4, 5000, 1, 0};
        read_numbers(words + 3, n);
        load(n[0], n[1], n[2]);
    } else if (!strcmp(words[2], "malformed")) {
        be_malformed();
    } else if (!strcmp(words[2], "vanish")) {
        vanish();
    } else {
        end();
    }
    return 0;
}
