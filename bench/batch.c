/*
 * The desk called from C: desk_batch of libhouse.a beside a batch of the same contract over rules.h, in one process, on one stream.
 *
 *   batch RUNS <requests     the best of so many runs, in turn, on fresh desks: all requests in one batch, one a call, 64 a call
 *   batch copied <requests   desk_batch alone, for copies.c: in one batch, then one request a call
 *
 * Before anything is measured the two are called side by side, and every answer, stop, used and written must be the same.
 */
#include <stdint.h>
#include <stdio.h>
#include <stdlib.h>
#include <string.h>
#include <time.h>

#include "house.h"
#include "rules.h"

/* Requests, where each of them ends, and room for all answers. What is no request counts as the last one. */
struct stream {
    uint8_t *bytes;
    size_t length, *ends, count, size;
};

static struct desk by_c;
static desk_t by_library;

/* ---- the two batches: the same arguments, and the same answers */

static __attribute__((noinline)) uint32_t c_batch(struct desk *desk, const uint8_t *requests, size_t length, uint8_t *answers, size_t size,
                                                  size_t place, size_t *used, size_t *written)
{
    size_t taken = 0, at = place;
    uint32_t stop = 0;
    while (taken < length) {
        unsigned kind = requests[taken], body = kind < 33 ? lengths[kind] : 255;
        if (at >= size || size - at < 5) {
            stop = 13;
            break;
        }
        if (body == 255 || length - taken <= body) {
            stop = body == 255 ? 1 : 2;
            answers[at++] = (uint8_t)(0xC0 + stop);
            break;
        }
        answers[at] = answer(desk, requests + taken, 1 + body);
        if (answers[at++] == 0x81) {
            uint32_t n = desk->last;
            answers[at] = (uint8_t)(n >> 24), answers[at + 1] = (uint8_t)(n >> 16), answers[at + 2] = (uint8_t)(n >> 8), answers[at + 3] = (uint8_t)n;
            at += 4;
        }
        taken += 1 + body;
    }
    *used = taken;
    *written = at - place;
    return stop;
}

typedef uint32_t batch(const uint8_t *requests, size_t length, uint8_t *answers, size_t size, size_t place, size_t *used, size_t *written);

static inline uint32_t of_c(const uint8_t *requests, size_t length, uint8_t *answers, size_t size, size_t place, size_t *used, size_t *written)
{
    return c_batch(&by_c, requests, length, answers, size, place, used, written);
}

static inline uint32_t of_library(const uint8_t *requests, size_t length, uint8_t *answers, size_t size, size_t place, size_t *used, size_t *written)
{
    return desk_batch(&by_library, requests, length, answers, size, place, used, written);
}

static void open_both(void)
{
    memset(&by_c, 0, sizeof by_c);
    by_c.rule = 1;
    desk_open(&by_library, 0, 1);
}

/* ---- a stream through a batch, so many requests a call; compiled into its callers, so that each calls its batch directly */

static inline __attribute__((always_inline)) size_t call(batch *one, const struct stream *s, size_t each, uint8_t *answers)
{
    size_t at = 0, place = 0, used, written, i;
    for (i = each;; i += each) {
        size_t end = i < s->count ? s->ends[i - 1] : s->length;
        uint32_t stop = one(s->bytes + at, end - at, answers, s->size, place, &used, &written);
        at += used;
        place += written;
        if (stop || i >= s->count)
            return place;
    }
}

static double now(void)
{
    struct timespec t;
    clock_gettime(CLOCK_MONOTONIC, &t);
    return (double)t.tv_sec * 1e9 + (double)t.tv_nsec;
}

static void measure(const char *what, const struct stream *s, size_t each, unsigned long runs, uint8_t *answers)
{
    double c = 1e18, library = 1e18, n = s->count ? (double)s->count : 1;
    while (runs--) {
        double began, between, ended;
        open_both();
        began = now();
        call(of_c, s, each, answers);
        between = now();
        call(of_library, s, each, answers);
        ended = now();
        c = between - began < c ? between - began : c;
        library = ended - between < library ? ended - between : library;
    }
    printf("%s: C %.3f ms %.1f ns, desk_batch %.3f ms %.1f ns, ratio %.2f\n", what, c / 1e6, c / n, library / 1e6, library / n, library / c);
}

/* ---- side by side: the answers start at a place, and have `room` bytes a call (0: all there is), so that some calls stop for want of it */

static int agree(const struct stream *s, size_t each, size_t room, uint8_t *answers, uint8_t *others)
{
    size_t at = 0, place = 0, next = each, used, written, used2, written2;
    open_both();
    memset(answers, 0xEE, s->size);
    memset(others, 0xEE, s->size);
    for (;;) {
        size_t end = next < s->count ? s->ends[next - 1] : s->length, size = room ? place + room : s->size;
        uint32_t stop = of_c(s->bytes + at, end - at, answers, size, place, &used, &written);
        if (stop != of_library(s->bytes + at, end - at, others, size, place, &used2, &written2) || used != used2 || written != written2)
            return 0;
        at += used;
        place += written;
        if (stop == 1 || stop == 2 || (stop == 0 && next >= s->count) || (room && room < 5))
            break;
        if (stop == 0)
            next += each;
    }
    return !memcmp(answers, others, s->size) && by_c.last == desk_last(&by_library) && by_c.kept == desk_kept(&by_library);
}

/* Also where there is no room for an answer, for just one, and for a few. */
static int all_agree(const struct stream *s, uint8_t *answers, uint8_t *others)
{
    return agree(s, s->count, 0, answers, others) && agree(s, 1, 0, answers, others) && agree(s, 64, 0, answers, others)
           && agree(s, s->count, 4, answers, others) && agree(s, s->count, 5, answers, others) && agree(s, 64, 23, answers, others);
}

/* ---- input */

static void *owned(void *memory)
{
    if (!memory) {
        fputs("batch: no memory\n", stderr);
        exit(1);
    }
    return memory;
}

static void cut_into_requests(struct stream *s)
{
    size_t at = 0;
    s->ends = owned(malloc((s->length + 1) * sizeof *s->ends));
    for (s->count = 0; at < s->length; s->ends[s->count++] = at) {
        uint32_t body = desk_body_length(s->bytes[at]);
        at = body == DESK_UNKNOWN_KIND || s->length - at <= body ? s->length : at + 1 + body;
    }
    s->size = 5 * s->count + 64;
}

static void read_stream(struct stream *s)
{
    size_t room = 1 << 20, got;
    s->bytes = owned(malloc(room));
    s->length = 0;
    while ((got = fread(s->bytes + s->length, 1, room - s->length, stdin)) > 0)
        if ((s->length += got) == room)
            s->bytes = owned(realloc(s->bytes, room *= 2));
    cut_into_requests(s);
}

/* Of copies.c, where it is loaded: what was copied since it was last asked, on a line of standard error. */
extern void say_copied(void) __attribute__((weak));

static int copied(const struct stream *s, uint8_t *answers)
{
    size_t each[2] = {s->count, 1}, i;
    if (!say_copied)
        return fputs("batch: copies.c is not loaded\n", stderr), 1;
    for (i = 0; i < 2; i++) {
        open_both();
        say_copied();
        call(of_library, s, each[i], answers);
        say_copied();
    }
    return 0;
}

int main(int argc, char **argv)
{
    struct stream s;
    uint8_t *answers, *others;
    unsigned long runs = argc == 2 ? strtoul(argv[1], 0, 10) : 0;
    if (argc != 2 || (!runs && strcmp(argv[1], "copied")))
        return fputs("batch RUNS | copied\n", stderr), 2;
    read_stream(&s);
    answers = owned(malloc(s.size)), others = owned(malloc(s.size));
    if (!runs)
        return copied(&s, answers);
    if (!all_agree(&s, answers, others))
        return fputs("batch: the two answer differently\n", stderr), 1;
    measure("one batch", &s, s.count, runs, answers);
    measure("one request a call", &s, 1, runs, answers);
    measure("64 requests a call", &s, 64, runs, answers);
    return 0;
}
