/*
 * Every call of include/house.h again, on memory that ends where a page begins that can't be touched.
 *
 * paged_batch and the others take what desk_batch and the others take. What the call is lent is copied, each piece to pages of its own: flush with
 * the page behind them, or with the one before. Each call is made three times, always from the same desk and bytes: with every piece on one side, with every
 * piece on the other, and with the parts of the desk apart, each as a piece of its own, through the function over parts that the call is made of.
 *
 * A byte outside that is read or written in the page beside ends the program, and so does one that is written in the pages lent, one that had to stay, or
 * another answer the next time.
 */
#ifndef HOUSE_PAGES_H
#define HOUSE_PAGES_H

/* mmap's MAP_ANONYMOUS and dprintf are beyond C99. */
#ifndef _DEFAULT_SOURCE
#define _DEFAULT_SOURCE 1
#endif
#ifndef _POSIX_C_SOURCE
#define _POSIX_C_SOURCE 200809L
#endif

#include <signal.h>
#include <stddef.h>
#include <stdint.h>
#include <stdio.h>
#include <string.h>
#include <sys/mman.h>
#include <unistd.h>

#include "house.h"

#define PAGE ((size_t)4096)
#define FILL 0xA5               /* what the pages hold beside what is lent */
#define MOST_ANSWERS PAGE       /* bytes that may be lent for answers */
#define MOST_REQUESTS (2 * PAGE)
#define MOST_IMAGE ((size_t)65536)

enum { AT_DESK, AT_BASE, AT_CURRENT, AT_LAST, AT_RULE, AT_LOG, AT_REQUESTS, AT_ANSWERS, AT_USED, AT_WRITTEN, AT_REASON, AT_IMAGE, PIECES };

typedef struct {
    const char *name;
    size_t bytes;               /* whole pages */
    uint8_t *first;
    uint8_t *at;                /* what is lent of them */
    size_t size;
} piece;

static piece pieces[PIECES] = {
    {"the desk", 4 * PAGE, NULL, NULL, 0},         {"the part base", 2 * PAGE, NULL, NULL, 0},
    {"the part current", 2 * PAGE, NULL, NULL, 0}, {"the part last", PAGE, NULL, NULL, 0},
    {"the part rule", PAGE, NULL, NULL, 0},        {"the part log", PAGE, NULL, NULL, 0},
    {"the requests", MOST_REQUESTS, NULL, NULL, 0}, {"the answers", MOST_ANSWERS, NULL, NULL, 0},
    {"used", PAGE, NULL, NULL, 0},                 {"written", PAGE, NULL, NULL, 0},
    {"the reason", PAGE, NULL, NULL, 0},           {"the image", MOST_IMAGE, NULL, NULL, 0},
};
static const char *calling = "no call";
static uint32_t sides = 0x55;   /* of each piece one bit: 0 flush with the page behind, 1 with the one before */

static inline void broken(const char *what, const char *which)
{
    fflush(NULL);
    dprintf(2, "house: FAILED: %s: %s%s\n", calling, which, what);
    _exit(1);
}

static inline void touched(int signal_number)
{
    (void)signal_number;
    broken("a page that was not lent was touched", "");
}

/* Pages between two that can't be touched. */
static inline uint8_t *pages_between(size_t bytes)
{
    uint8_t *all = (uint8_t *)mmap(NULL, bytes + 2 * PAGE, PROT_NONE, MAP_PRIVATE | MAP_ANONYMOUS, -1, 0);
    if (all == MAP_FAILED || mprotect(all + PAGE, bytes, PROT_READ | PROT_WRITE) != 0)
        broken("no pages to lend", "");
    signal(SIGSEGV, touched);
    signal(SIGBUS, touched);
    return all + PAGE;
}

static inline uint8_t *lend(int which, size_t size)
{
    piece *lent = &pieces[which];
    if (lent->first == NULL)
        lent->first = pages_between(lent->bytes);
    if (size > lent->bytes)
        broken(" has no pages for so many bytes", lent->name);
    memset(lent->first, FILL, lent->bytes);
    lent->at = sides >> which & 1 ? lent->first : lent->first + lent->bytes - size;
    lent->size = size;
    return lent->at;
}

static inline uint8_t *lend_copy(int which, const void *from, size_t size)
{
    uint8_t *at = lend(which, size);
    if (size > 0)
        memcpy(at, from, size);
    return at;
}

/* A byte that is FILL or not: each is like the one before it, and the first like FILL. */
static inline int all_fill(const uint8_t *from, size_t length)
{
    return length == 0 || (from[0] == FILL && memcmp(from, from + 1, length - 1) == 0);
}

/* Takes a piece back: the pages are as before outside it. */
static inline void take(int which, void *to)
{
    const piece *lent = &pieces[which];
    size_t before = (size_t)(lent->at - lent->first), behind = lent->bytes - before - lent->size;
    if (!all_fill(lent->first, before) || !all_fill(lent->at + lent->size, behind))
        broken(": a byte beside it was written", lent->name);
    if (lent->size > 0)
        memcpy(to, lent->at, lent->size);
}

/* Takes back what was only to be read. */
static inline void take_same(int which, const void *as)
{
    static uint8_t now[MOST_IMAGE];
    take(which, now);
    if (pieces[which].size > 0 && memcmp(now, as, pieces[which].size) != 0)
        broken(" was only to be read, and is changed", pieces[which].name);
}

/* The sides of the next call: over many calls each piece meets each other on both. */
static inline void next_sides(void)
{
    sides = sides * 1664525u + 1013904223u;
    sides ^= sides >> 16;
}

#define TIMES 3                 /* on one side, on the other, apart */

static inline desk_t *lend_desk(const desk_t *desk)
{
    return (desk_t *)(void *)lend_copy(AT_DESK, desk, sizeof *desk);
}

static inline size_t *lend_count(int which)
{
    return (size_t *)(void *)lend(which, sizeof(size_t));
}

/* ---- The parts of a desk, each on pages of its own */

typedef struct {
    uint32_t *base, *current, *last, *rule;
    uint8_t *log;
} parts;

static inline parts lend_parts(const desk_t *desk)
{
    parts lent;
    lent.base = (uint32_t *)(void *)lend_copy(AT_BASE, desk->base, sizeof desk->base);
    lent.current = (uint32_t *)(void *)lend_copy(AT_CURRENT, desk->current, sizeof desk->current);
    lent.last = (uint32_t *)(void *)lend_copy(AT_LAST, &desk->last, sizeof desk->last);
    lent.rule = (uint32_t *)(void *)lend_copy(AT_RULE, &desk->rule, sizeof desk->rule);
    lent.log = lend_copy(AT_LOG, desk->log, sizeof desk->log);
    return lent;
}

static inline void take_parts(desk_t *desk)
{
    take(AT_BASE, desk->base);
    take(AT_CURRENT, desk->current);
    take(AT_LAST, &desk->last);
    take(AT_RULE, &desk->rule);
    take(AT_LOG, desk->log);
}

static inline void take_same_parts(const desk_t *desk)
{
    take_same(AT_CURRENT, desk->current);
    take_same(AT_LOG, desk->log);
}

/* The next of the three times a call is made: its answer and the desk are as at the time before. */
static inline void same_again(int time, int same, const desk_t *desk, const desk_t *before)
{
    if (time > 0 && (!same || memcmp(desk, before, sizeof *desk) != 0))
        broken(time == 1 ? "another answer on the other side" : "another answer with the parts apart", "");
    sides = ~sides;
    if (time == TIMES - 1)
        next_sides();
}

/* ---- desk_batch */

static inline uint32_t batch_once(int apart, desk_t *desk, const uint8_t *requests, size_t length, uint8_t *answers, size_t size, size_t place,
                                  size_t *used, size_t *written)
{
    uint8_t *in = lend_copy(AT_REQUESTS, requests, length), *out = lend_copy(AT_ANSWERS, answers, size);
    size_t *u = lend_count(AT_USED), *w = lend_count(AT_WRITTEN);
    uint32_t stop;
    if (apart) {
        parts lent = lend_parts(desk);
        stop = desk_batch_parts(lent.base, lent.log, lent.current, lent.last, *lent.rule, in, length, out, size, place, u, w);
        take_parts(desk);
    } else {
        stop = desk_batch(lend_desk(desk), in, length, out, size, place, u, w);
        take(AT_DESK, desk);
    }
    take_same(AT_REQUESTS, requests);
    take(AT_ANSWERS, answers);
    take(AT_USED, used);
    take(AT_WRITTEN, written);
    return stop;
}

/* Only bytes from the place onward, as many as are written, may differ from those before. */
static inline void stayed(const uint8_t *before, const uint8_t *after, size_t size, size_t place, size_t written)
{
    size_t i;
    for (i = 0; i < size; i++)
        if (before[i] != after[i] && (i < place || i - place >= written))
            broken("an answer byte that is not written did not stay", "");
}

static inline uint32_t paged_batch(desk_t *desk, const uint8_t *requests, size_t length, uint8_t *answers, size_t size, size_t place, size_t *used,
                                   size_t *written)
{
    static desk_t before, after;
    static uint8_t empty[MOST_ANSWERS], full[MOST_ANSWERS];
    size_t u = 0, w = 0;
    uint32_t stop = 0, last_stop = 0;
    int time;
    calling = "desk_batch";
    if (size > MOST_ANSWERS)
        broken("too many answer bytes", "");
    *used = *written = 0;
    memcpy(&before, desk, sizeof before);
    memcpy(empty, answers, size);
    for (time = 0; time < TIMES; time++, last_stop = stop, *used = u, *written = w) {
        memcpy(&after, &before, sizeof after);
        memcpy(full, empty, size);
        stop = batch_once(time == 2, &after, requests, length, full, size, place, &u, &w);
        stayed(empty, full, size, place, w);
        same_again(time, time > 0 && stop == last_stop && u == *used && w == *written && memcmp(full, answers, size) == 0, &after, desk);
        memcpy(desk, &after, sizeof after);
        memcpy(answers, full, size);
    }
    return stop;
}

/* ---- desk_why */

static inline uint32_t why_once(int apart, const desk_t *desk, const uint8_t *request, size_t length, desk_reason *reason)
{
    const uint8_t *in = lend_copy(AT_REQUESTS, request, length);
    uint8_t *out = lend(AT_REASON, sizeof *reason); /* five words, too */
    uint32_t number;
    if (apart) {
        parts lent = lend_parts(desk);
        number = desk_why_parts(lent.log, lent.current, *lent.last, *lent.rule, in, length, (uint32_t *)(void *)out);
        take_same_parts(desk);
    } else {
        number = desk_why(lend_desk(desk), in, length, (desk_reason *)(void *)out);
        take_same(AT_DESK, desk);
    }
    take_same(AT_REQUESTS, request);
    take(AT_REASON, reason);
    return number;
}

static inline uint32_t paged_why(const desk_t *desk, const uint8_t *request, size_t length, desk_reason *reason)
{
    desk_reason got;
    uint32_t number = 0, last_number = 0;
    int time;
    calling = "desk_why";
    for (time = 0; time < TIMES; time++, last_number = number, *reason = got) {
        number = why_once(time == 2, desk, request, length, &got);
        same_again(time, time > 0 && number == last_number && memcmp(&got, reason, sizeof got) == 0, desk, desk);
    }
    return number;
}

/* ---- desk_save */

static inline uint32_t save_once(int apart, const desk_t *desk, uint8_t *buffer, size_t size, size_t *written)
{
    uint8_t *out = lend_copy(AT_IMAGE, buffer, size);
    size_t *w = lend_count(AT_WRITTEN);
    uint32_t number;
    if (apart) {
        parts lent = lend_parts(desk);
        number = desk_save_parts(lent.current, *lent.last, *lent.rule, out, size, w);
        take_same_parts(desk);
    } else {
        number = desk_save(lend_desk(desk), out, size, w);
        take_same(AT_DESK, desk);
    }
    take(AT_IMAGE, buffer);
    take(AT_WRITTEN, written);
    return number;
}

static inline uint32_t paged_save(const desk_t *desk, uint8_t *buffer, size_t size, size_t *written)
{
    static uint8_t before[MOST_IMAGE], after[MOST_IMAGE];
    size_t w = 0;
    uint32_t number = 0, last_number = 0;
    int time;
    calling = "desk_save";
    if (size > MOST_IMAGE)
        broken("too many bytes", "");
    *written = 0;
    memcpy(before, buffer, size);
    for (time = 0; time < TIMES; time++, last_number = number, *written = w) {
        memcpy(after, before, size);
        number = save_once(time == 2, desk, after, size, &w);
        if (w > size || memcmp(after + w, before + w, size - w) != 0)
            broken("a byte behind the image did not stay", "");
        same_again(time, time > 0 && number == last_number && w == *written && memcmp(after, buffer, size) == 0, desk, desk);
        memcpy(buffer, after, size);
    }
    return number;
}

/* ---- desk_load and desk_open */

static inline uint32_t load_once(int apart, desk_t *desk, const uint8_t *image, size_t length)
{
    const uint8_t *in = lend_copy(AT_IMAGE, image, length);
    uint32_t number;
    if (apart) {
        parts lent = lend_parts(desk);
        number = desk_load_parts(lent.base, lent.log, lent.current, lent.last, lent.rule, in, length);
        take_parts(desk);
    } else {
        number = desk_load(lend_desk(desk), in, length);
        take(AT_DESK, desk);
    }
    take_same(AT_IMAGE, image);
    return number;
}

static inline uint32_t open_once(int apart, desk_t *desk, uint32_t last, uint32_t rule)
{
    uint32_t number;
    if (apart) {
        parts lent = lend_parts(desk);
        number = desk_open_parts(lent.base, lent.log, lent.current, lent.last, lent.rule, last, rule);
        take_parts(desk);
    } else {
        number = desk_open(lend_desk(desk), last, rule);
        take(AT_DESK, desk);
    }
    return number;
}

/* A desk that starts anew, from an image or, where there is none, without records. */
static inline uint32_t start(const char *name, desk_t *desk, const uint8_t *image, size_t length, uint32_t last, uint32_t rule)
{
    static desk_t before, after;
    uint32_t number = 0, last_number = 0;
    int time;
    calling = name;
    memcpy(&before, desk, sizeof before);
    for (time = 0; time < TIMES; time++, last_number = number) {
        memcpy(&after, &before, sizeof after);
        number = image ? load_once(time == 2, &after, image, length) : open_once(time == 2, &after, last, rule);
        same_again(time, number == last_number, &after, desk);
        memcpy(desk, &after, sizeof after);
    }
    return number;
}

static inline uint32_t paged_load(desk_t *desk, const uint8_t *image, size_t length)
{
    return start("desk_load", desk, image, length, 0, 0);
}

static inline uint32_t paged_open(desk_t *desk, uint32_t last, uint32_t rule)
{
    return start("desk_open", desk, NULL, 0, last, rule);
}

/* ---- The three that read a desk and answer with one number; of these only desk_kept reads bytes of a part, the log */

static inline uint32_t paged_number(uint32_t (*function)(const desk_t *), const char *name, const desk_t *desk)
{
    uint32_t number = 0, last_number = 0;
    int time;
    calling = name;
    for (time = 0; time < TIMES; time++, last_number = number) {
        if (time == 2 && function == desk_kept) {
            number = desk_kept_parts(lend_copy(AT_LOG, desk->log, sizeof desk->log));
            take_same(AT_LOG, desk->log);
        } else {
            number = function(lend_desk(desk));
            take_same(AT_DESK, desk);
        }
        same_again(time, number == last_number, desk, desk);
    }
    return number;
}

#endif
