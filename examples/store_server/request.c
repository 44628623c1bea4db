#include "request.h"

#include <ctype.h>
#include <errno.h>
#include <inttypes.h>
#include <stdio.h>
#include <stdlib.h>
#include <string.h>

/* The words of each operation, and how many numbers follow them. */
static const struct { const char *word; size_t numbers; } forms[] = {
    [GET] = {"get", 1}, [PUT] = {"put", 2}, [REMOVE] = {"remove", 1}, [ADD] = {"add", 2}, [TRANSFER] = {"transfer", 3}, [COUNT] = {"count", 0},
};
static const char *const answers[] = {
    [IS_VALUE] = "value", [IS_ABSENT] = "absent", [IS_DONE] = "done", [IS_SHORT] = "short", [IS_FULL] = "full", [IS_RANGE] = "range",
};
enum { FORMS = sizeof forms / sizeof *forms, ANSWERS = sizeof answers / sizeof *answers };

/* Reads a word, and moves behind it. */
static bool skip_word(const char **at, const char *word)
{
    size_t length = strlen(word);
    if (strncmp(*at, word, length) || ((*at)[length] != ' ' && (*at)[length] != '\0')) return false;
    *at += length;
    return true;
}

/* Reads a space and a number, and moves behind them. (strtoll alone would take spaces and a plus.) */
static bool skip_number(const char **at, int64_t *number)
{
    const char *digits = *at + 1;
    if (**at != ' ' || !isdigit((unsigned char)digits[*digits == '-'])) return false;
    char *end;
    errno = 0;
    *number = strtoll(digits, &end, 10);
    if (errno) return false;
    *at = end;
    return true;
}

static bool skip_place(const char **at, uint64_t *place)
{
    const char *digits = *at + 2;
    if (strncmp(*at, " @", 2) || !isdigit((unsigned char)*digits)) return false;
    char *end;
    errno = 0;
    *place = strtoull(digits, &end, 10);
    *at = end;
    return !errno;
}

const char *request_read(const char *line, request *to)
{
    for (size_t i = 0; i < FORMS; i++) {
        int64_t numbers[3] = {0};
        const char *at = line;
        if (!skip_word(&at, forms[i].word)) continue;
        for (size_t n = 0; n < forms[i].numbers; n++)
            if (!skip_number(&at, &numbers[n])) return "a number of 64 bits is wanted";
        if (*at) return "the line goes on behind the request";
        *to = (request){.operation = (operation)i, .key = numbers[0], .amount = numbers[1]};
        if (i == TRANSFER) to->to = numbers[1], to->amount = numbers[2];
        return i == TRANSFER && to->amount < 0 ? "a transfer of less than nothing" : NULL;
    }
    return "no such request";
}

bool group_begins(const char *line, size_t *count)
{
    int64_t number;
    if (!skip_word(&line, "together")) return false;
    bool is_well = skip_number(&line, &number) && !*line && number >= 1 && number <= GROUP_MOST;
    *count = is_well ? (size_t)number : 0;
    return true;
}

static size_t request_write(const request *r, char *to)
{
    const int64_t numbers[] = {r->key, r->operation == TRANSFER ? r->to : r->amount, r->amount};
    size_t length = (size_t)sprintf(to, "%s", forms[r->operation].word);
    for (size_t n = 0; n < forms[r->operation].numbers; n++) length += (size_t)sprintf(to + length, " %" PRId64, numbers[n]);
    to[length] = '\n';
    return length + 1;
}

size_t group_write(const group *g, char *to)
{
    size_t length = g->count == 1 ? 0 : (size_t)sprintf(to, "together %zu\n", g->count);
    for (size_t i = 0; i < g->count; i++) length += request_write(&g->requests[i], to + length);
    return length;
}

static size_t answer_write(answer a, uint64_t place, char *to)
{
    if (a.kind == IS_VALUE) return (size_t)sprintf(to, "value %" PRId64 " @%" PRIu64 "\n", a.value, place);
    return (size_t)sprintf(to, "%s @%" PRIu64 "\n", answers[a.kind], place);
}

size_t outcome_write(const outcome *o, size_t count, char *to)
{
    size_t length = 0;
    switch (o->ending) {
    case HAS_FAILED: return (size_t)snprintf(to, LINE_MOST, "error %s\n", o->reason);
    case WAS_REFUSED: return (size_t)sprintf(to, "refused %zu %s\n", o->refused + 1, answers[o->answers[o->refused].kind]);
    case TOOK_EFFECT: break;
    }
    for (size_t i = 0; i < count; i++) length += answer_write(o->answers[i], o->place, to + length);
    return length;
}

static bool refusal_read(const char *line, outcome *to)
{
    int64_t number;
    if (!skip_number(&line, &number) || number < 1 || number > GROUP_MOST || *line++ != ' ') return false;
    to->ending = WAS_REFUSED;
    to->refused = (size_t)number - 1;
    for (size_t kind = IS_SHORT; kind < ANSWERS; kind++) {
        if (strcmp(line, answers[kind])) continue;
        to->answers[to->refused] = (answer){.kind = (answer_kind)kind};
        return true;
    }
    return false;
}

bool outcome_read(const char *line, size_t at, outcome *to)
{
    uint64_t place;
    if (at == 0 && skip_word(&line, "refused")) return refusal_read(line, to);
    for (size_t kind = IS_VALUE; kind <= IS_DONE; kind++) {
        answer told = {.kind = (answer_kind)kind};
        if (!skip_word(&line, answers[kind])) continue;
        if (kind == IS_VALUE && !skip_number(&line, &told.value)) return false;
        if (!skip_place(&line, &place) || *line || (at && place != to->place)) return false;
        to->ending = TOOK_EFFECT;
        to->answers[at] = told;
        to->place = place;
        return true;
    }
    return false;
}
