/* The three calls of gauges by the library, each string lent between two pages that nobody may touch, with marked bytes
   on both sides where there is room for them. */
#ifndef LEND_H
#define LEND_H

#include "../../include/pathpetal.h"
#include "../interface/scenes.h"

#include <signal.h>
#include <stdio.h>
#include <string.h>
#include <sys/mman.h>
#include <unistd.h>

enum which { PLACE, FEED, READ, CALLS };
static const char *const call_names[CALLS] = {"place", "feed", "read"};

enum { FILE_MOST = 17600, STATE_MOST = 1200, READINGS_MOST = 100 };

/* A call's whole input. */
struct call {
    uint8_t file[FILE_MOST], state[STATE_MOST];
    int64_t readings[READINGS_MOST];
    size_t file_len, state_len, readings_len;
    uint64_t cell;
};

/* What a library's call touched that it must not. */
enum touched { NOTHING, BESIDE, THE_FILE, WHEN_REFUSED, THE_STATE };
static const char *const touched_names[] = {"", "a byte beside what it was lent", "the channel's file",
                                            "what it was lent, though it refused", "the gauges that it only reads"};

enum { FILE_STRING, STATE_STRING, READINGS_STRING, STRINGS };
enum { AROUND = 32, MARK = 0xA5, ARENA = 65536 };

static uint8_t *arena[STRINGS];

static void page_touched(int number)
{
    static const char line[] = "a call touched memory that it was not lent\n0 passed, 1 failed\n";
    (void)number;
    _exit(write(1, line, sizeof line - 1) < 0 ? 2 : 1);
}

static void arenas(void)
{
    struct sigaction on_touch = {.sa_handler = page_touched};
    sigaction(SIGSEGV, &on_touch, NULL);
    sigaction(SIGBUS, &on_touch, NULL);
    for (int i = 0; i < STRINGS; i++) {
        uint8_t *at = mmap(NULL, 3 * ARENA, PROT_NONE, MAP_PRIVATE | MAP_ANONYMOUS, -1, 0);
        if (at == MAP_FAILED || mprotect(at + ARENA, ARENA, PROT_READ | PROT_WRITE)) {
            puts("no memory\n0 passed, 1 failed");
            _exit(1);
        }
        arena[i] = at + ARENA;
    }
}

/* A string up against the page behind it, against the page before it, or at any address between; numbers of 8 bytes at
   a multiple of 8. One of no bytes may be NULL. */
static uint8_t *lend(int i, const void *from, size_t len)
{
    uint8_t *at = arena[i], *end = arena[i] + ARENA;
    switch (draw() % 4) {
    case 0: at = end - len; break;
    case 1: break;
    default: at += AROUND + draw() % 8 * (i == READINGS_STRING ? 8 : 1); break;
    }
    if (len == 0 && one_in(2))
        return NULL;
    memcpy(at, from, len);
    if (at > arena[i])
        memset(at - AROUND, MARK, AROUND);
    if (at + len < end)
        memset(at + len, MARK, AROUND);
    return at;
}

static bool marks_live(int i, const uint8_t *at, size_t len)
{
    bool live = true;
    if (!at)
        return true;
    for (int j = 1; j <= AROUND && at > arena[i]; j++)
        live = live && *(at - j) == MARK;
    for (int j = 0; j < AROUND && at + len < arena[i] + ARENA; j++)
        live = live && at[len + (size_t)j] == MARK;
    return live;
}

static bool same(const uint8_t *at, const void *was, size_t len)
{
    return !at || !memcmp(at, was, len);
}

/* The library's answer; c's gauges and readings are then what it left. Calls find them at different addresses, so that
   one can only go on from the bytes. */
static uint64_t by_library(enum which which, struct call *c, enum touched *touched)
{
    size_t lens[STRINGS] = {which == READ ? 0 : c->file_len, c->state_len, which == READ ? 8 * c->readings_len : 0};
    const void *from[STRINGS] = {c->file, c->state, c->readings};
    uint8_t *at[STRINGS];
    uint64_t answer;
    for (int i = 0; i < STRINGS; i++)
        at[i] = lend(i, from[i], lens[i]);
    switch (which) {
    case PLACE:
        answer = pathpetal_place_gauge(at[FILE_STRING], c->file_len, at[STATE_STRING], c->state_len, c->cell);
        break;
    case FEED: answer = pathpetal_feed_gauges(at[FILE_STRING], c->file_len, at[STATE_STRING], c->state_len); break;
    default:
        answer = pathpetal_read_gauges(at[STATE_STRING], c->state_len, (int64_t *)(void *)at[READINGS_STRING],
                                       c->readings_len);
        break;
    }
    *touched = NOTHING;
    for (int i = 0; i < STRINGS; i++)
        if (!marks_live(i, at[i], lens[i]))
            *touched = BESIDE;
    if (!same(at[FILE_STRING], c->file, lens[FILE_STRING]))
        *touched = THE_FILE;
    if (which == READ && !same(at[STATE_STRING], c->state, c->state_len))
        *touched = THE_STATE;
    if (pathpetal_number(answer) && !(same(at[STATE_STRING], c->state, c->state_len) &&
                                      same(at[READINGS_STRING], c->readings, lens[READINGS_STRING])))
        *touched = WHEN_REFUSED;
    if (at[STATE_STRING])
        memcpy(c->state, at[STATE_STRING], c->state_len);
    if (at[READINGS_STRING])
        memcpy(c->readings, at[READINGS_STRING], lens[READINGS_STRING]);
    return answer;
}

#endif
