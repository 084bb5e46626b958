/*
 * What the tests of include/house.h in C share: checks that are counted, and the document's run with what it answers and leaves.
 */
#ifndef HOUSE_CHECKS_H
#define HOUSE_CHECKS_H

#include <stdint.h>
#include <stdio.h>
#include <string.h>

#define COUNT_OF(array) (sizeof(array) / sizeof((array)[0]))

/* ---- Checks and their number */

static uint64_t checks, differences, faults;

static inline void check(const char *what, uint64_t at, uint64_t got, uint64_t expected)
{
    checks++;
    if (got != expected && differences++ == 0)
        printf("house: %s, %llu: got 0x%llX, expected 0x%llX\n", what, (unsigned long long)at, (unsigned long long)got,
               (unsigned long long)expected);
}

static inline void print_bytes(const char *name, const uint8_t *bytes, size_t length)
{
    size_t i;
    printf("house:   %s", name);
    for (i = 0; i < length; i++)
        printf("%s%02x", i % 4 == 0 ? " " : "", bytes[i]);
    printf("\n");
}

static inline void check_bytes(const char *what, uint64_t at, const void *got, const void *expected, size_t length)
{
    checks++;
    if ((length == 0 || memcmp(got, expected, length) == 0) || differences++ > 0)
        return;
    printf("house: %s, %llu: other bytes\n", what, (unsigned long long)at);
    print_bytes("got     ", (const uint8_t *)got, length);
    print_bytes("expected", (const uint8_t *)expected, length);
}

/* Ends a part of the test. A loop that was cut short, or never entered, has not made as many checks as it should. */
static inline void part(const char *name, uint64_t least)
{
    static uint64_t before;
    uint64_t made = checks - before;
    before = checks;
    printf("house: %s: %llu checks\n", name, (unsigned long long)made);
    if (made < least || made == 0) {
        faults++;
        printf("house: %s: too few checks: there should be %llu, and not 0\n", name, (unsigned long long)least);
    }
    fflush(NULL);
}

static inline int verdict(void)
{
    if (differences != 0 || faults != 0 || checks == 0) {
        printf("house: FAILED: %llu checks, %llu different, %llu parts at fault\n", (unsigned long long)checks,
               (unsigned long long)differences, (unsigned long long)faults);
        return 1;
    }
    printf("house: ok, %llu checks\n", (unsigned long long)checks);
    return 0;
}

/* splitmix64 */
static inline uint64_t random_number(uint64_t *state)
{
    uint64_t z = *state += 0x9E3779B97F4A7C15u;
    z = (z ^ z >> 30) * 0xBF58476D1CE4E5B9u;
    z = (z ^ z >> 27) * 0x94D049BB133111EBu;
    return z ^ z >> 31;
}

static inline uint32_t below(uint64_t *state, uint32_t bound)
{
    return (uint32_t)((random_number(state) >> 32) % bound);
}

/* ---- The document's run: its requests, where each ends, its answers, where each ends, and how many changes are kept then */

static const uint8_t run[] = {
    0x01, 0x00, 0x00, 0x00, 0x05, 0x00, 0x03, 0x01, /* 1 */
    0x01, 0x00, 0x01, 0x02, 0x00, 0x00, 0x00, 0x00, /* 2 */
    0x02, 0x00, 0x01,                               /* 3 */
    0x05, 0x00, 0x01, 0x01, 0x02, 0x00, 0x01,       /* 4 */
    0x11, 0x00, 0x00, 0x02, 0x00, 0x01,             /* 5 */
    0x15, 0x00, 0x00,                               /* 6 */
    0x12, 0x01, 0x01, 0x02, 0x00, 0x01,             /* 7 */
    0x13, 0x01, 0x00, 0x00, 0x00, 0x00, 0x01,       /* 8 */
    0x07, 0x00, 0x00, 0x00, 0x00, 0x00, 0x01, 0x01, /* 9 */
    0x13, 0x01, 0x00, 0x00, 0x00, 0x00, 0x01,       /* 10 */
    0x14, 0x00, 0x00, 0x00, 0x00, 0x00, 0x01,       /* 11 */
    0x20, 0x00,                                     /* 12 */
    0x14, 0x00, 0x00, 0x00, 0x00, 0x00, 0x01,       /* 13 */
    0x13, 0x01, 0x00, 0x00, 0x00, 0x00, 0x03,       /* 14 */
    0x13, 0x01, 0x00, 0x00, 0x00, 0x00, 0x02,       /* 15 */
};
static const uint8_t run_answers[] = {
    0x80, 0x80, 0x80, 0x80, 0x80, 0x81, 0, 0, 0, 1, 0x80, 0xC8, 0x80, 0x80, 0x81, 0, 0, 0, 2, 0x80, 0x81, 0, 0, 0, 3, 0xC8, 0xC4,
};
#define RUN 15
static const size_t run_end[RUN + 1] = {0, 8, 16, 19, 26, 32, 35, 41, 48, 56, 63, 70, 72, 79, 86, 93};
static const size_t run_answer_end[RUN + 1] = {0, 1, 2, 3, 4, 5, 10, 11, 12, 13, 14, 19, 20, 25, 26, 27};
static const uint32_t run_kept[RUN + 1] = {0, 1, 2, 3, 4, 5, 6, 7, 7, 8, 8, 9, 8, 9, 9, 9};

/* The image of the desk that it leaves, written by hand: the last number, two users, a room, a script, two sessions, two drafts. */
static const uint8_t run_image[] = {
    0x40, 0, 0, 0, 3,
    0x41, 0, 0, 5, 0, 3, 0, 0, 0, 0, 0, 0, 0, 2, 1,    /* staff, leads room 1, administrator */
    0x41, 1, 1, 2, 0, 1, 0, 0, 0, 2, 0, 0, 0, 0, 0,    /* freelancer in room 1 */
    0x42, 1,
    0x43, 0, 2, 0, 1, 0,
    0x44, 0, 0, 2, 0, 1, 1, 0,
    0x44, 1, 1, 2, 0, 1, 0, 255,
    0x45, 0, 0, 0, 1, 0, 0, 0, 0, 3,                   /* in the house and in room 1 */
    0x45, 0, 0, 0, 3, 0, 0, 0, 0, 1,
};

#endif
