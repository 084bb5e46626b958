/*
 * Asks the desk's three functions, through desk.h, what the caption editor asks them, and compares each answer.
 *
 * For P1 to P12 the expected answers are the scope document's. All others are worked out here a second time and by sets:
 * a label is the set of what it includes, dominance is inclusion, the join is the union, and the length of a body is the
 * sum of the widths of its fields.
 *
 * Says the first difference in full. The last line has the number of checks. Exit status: 0 no difference, else 1.
 */
#include <stdint.h>
#include <stdio.h>

#include "desk.h"

#define COUNT_OF(array) ((uint32_t)(sizeof(array) / sizeof((array)[0])))

/* ---- Checks and their number */

static uint64_t checks, differences, faults;

static void check_pair(const char *function, uint32_t a, uint32_t b, uint32_t got, uint32_t expected)
{
    checks++;
    if (got != expected && differences++ == 0)
        printf("editor: %s(0x%08X, 0x%08X): got 0x%08X, expected 0x%08X\n", function, a, b, got, expected);
}

static void check_one(const char *function, uint32_t argument, uint32_t got, uint32_t expected)
{
    checks++;
    if (got != expected && differences++ == 0)
        printf("editor: %s(0x%08X): got 0x%08X, expected 0x%08X\n", function, argument, got, expected);
}

/* Ends a part of the test. A loop that was cut short, or never entered, has not made as many checks as it should. */
static void part(const char *name, uint64_t expected)
{
    static uint64_t before;
    uint64_t made = checks - before;
    before = checks;
    printf("editor: %s: %llu checks\n", name, (unsigned long long)made);
    if (made != expected || made == 0) {
        faults++;
        printf("editor: %s: wrong number of checks: it should be %llu, and not 0\n", name, (unsigned long long)expected);
    }
}

/* ---- The document's own examples */

static const struct {
    uint32_t a, b, answer;
} joins[] = {
    {0x00020001u, 0x00010002u, 0x00020003u}, /* P1 */
    {0x01020001u, 0x02020001u, 0xFF000000u}, /* P2 */
    {0xFE000000u, 0x03070000u, 0x03070000u}, /* P3 */
    {0xFE000000u, 0xFE000000u, 0xFE000000u}, /* P4 */
    {0x11000000u, 0x00000000u, 0xC3000000u}, /* P5 */
}, dominances[] = {
    {0x00020003u, 0x00020001u, 1}, /* P6 */
    {0x00020001u, 0x00020002u, 0}, /* P7 */
    {0x01020001u, 0x00020001u, 0}, /* P8 */
    {0xFF000000u, 0xFE000000u, 1}, /* P9 */
    {0x00080000u, 0x00000000u, 3}, /* P10 */
};

static const struct {
    uint32_t kind, answer;
} bodies[] = {
    {0x09, 8},   /* P11 */
    {0x17, 255}, /* P12 */
};

static void examples(void)
{
    uint32_t i;
    for (i = 0; i < COUNT_OF(joins); i++)
        check_pair("desk_join", joins[i].a, joins[i].b, desk_join(joins[i].a, joins[i].b), joins[i].answer);
    for (i = 0; i < COUNT_OF(dominances); i++)
        check_pair("desk_dominates", dominances[i].a, dominances[i].b, desk_dominates(dominances[i].a, dominances[i].b),
                   dominances[i].answer);
    for (i = 0; i < COUNT_OF(bodies); i++)
        check_one("desk_body_length", bodies[i].kind, desk_body_length(bodies[i].kind), bodies[i].answer);
    part("P1 to P12", 12);
}

/* The header's names stand for the document's numbers. */
static void names(void)
{
    check_one("DESK_SYS_HIGH", 0, DESK_SYS_HIGH, 0xFF000000u);
    check_one("DESK_SYS_LOW", 0, DESK_SYS_LOW, 0xFE000000u);
    check_one("DESK_NO", 0, DESK_NO, 0);
    check_one("DESK_YES", 0, DESK_YES, 1);
    check_one("DESK_BAD_LABEL", 0, DESK_BAD_LABEL, 3);
    check_one("DESK_BAD_JOIN", 0, DESK_BAD_JOIN, 0xC3000000u);
    check_one("DESK_UNKNOWN_KIND", 0, DESK_UNKNOWN_KIND, 255);
    part("names of the header", 7);
}

/* ---- Labels a second time, as sets */

/* Members 0 to 15 are the categories, 16 to 22 the steps from level to level, 23 to 39 the places; 63 marks a bad label. */
#define STEP(n) ((uint64_t)1 << (15 + (n)))
#define PLACE(n) ((uint64_t)1 << (23 + (n)))
#define EVERY_MEMBER (((uint64_t)1 << 40) - 1)
#define BAD ((uint64_t)1 << 63)

static uint64_t set_of(uint32_t number)
{
    uint32_t place = number / 0x1000000u, level = number / 0x10000u % 0x100u, step;
    uint64_t set = number % 0x10000u;
    if (number == 0xFF000000u)
        return EVERY_MEMBER;
    if (number == 0xFE000000u)
        return 0;
    if (place > 16 || level > 7)
        return BAD;
    for (step = 1; step <= level; step++)
        set |= STEP(step);
    return set | PLACE(place);
}

/* The least label that includes a set: no place is SysLow's, and two are SysHigh's alone. */
static uint32_t label_over(uint64_t set)
{
    uint32_t place, step, places = 0, number = (uint32_t)(set % 0x10000u);
    for (step = 1; step <= 7; step++)
        if (set & STEP(step))
            number += 0x10000u;
    for (place = 0; place <= 16; place++)
        if (set & PLACE(place)) {
            number += place * 0x1000000u;
            places++;
        }
    return places == 0 ? 0xFE000000u : places == 1 ? number : 0xFF000000u;
}

static uint32_t expected_dominates(uint32_t a, uint32_t b)
{
    uint64_t over = set_of(a), under = set_of(b);
    return (over | under) & BAD ? 3 : (under & ~over) == 0;
}

static uint32_t expected_join(uint32_t a, uint32_t b)
{
    uint64_t both = set_of(a) | set_of(b);
    return both & BAD ? 0xC3000000u : label_over(both);
}

static void compare(uint32_t a, uint32_t b)
{
    check_pair("desk_dominates", a, b, desk_dominates(a, b), expected_dominates(a, b));
    check_pair("desk_join", a, b, desk_join(a, b), expected_join(a, b));
}

/* Each corner against each: the bounds of place, level and categories from both sides, and what lies beside the ends. */
static void corners(void)
{
    static const uint32_t places[] = {0, 1, 2, 15, 16, 17, 18, 0x7F, 0x80, 0xC3, 0xFD, 0xFE, 0xFF};
    static const uint32_t levels[] = {0, 1, 6, 7, 8, 9, 0x7F, 0x80, 0xFF};
    static const uint32_t categories[] = {0, 1, 2, 3, 0x5555, 0xAAAA, 0x7FFF, 0x8000, 0xFFFE, 0xFFFF};
    static uint32_t corner[COUNT_OF(places) * COUNT_OF(levels) * COUNT_OF(categories)];
    uint32_t i, j, k, n = 0;
    for (i = 0; i < COUNT_OF(places); i++)
        for (j = 0; j < COUNT_OF(levels); j++)
            for (k = 0; k < COUNT_OF(categories); k++)
                corner[n++] = places[i] << 24 | levels[j] << 16 | categories[k];
    for (i = 0; i < n; i++)
        for (j = 0; j < n; j++)
            compare(corner[i], corner[j]);
    part("corner labels", (uint64_t)2 * COUNT_OF(corner) * COUNT_OF(corner));
}

/* splitmix64 from a fixed start, so that a difference shows again in the next run */
static uint32_t random_number(void)
{
    static uint64_t state = 2024;
    uint64_t z = state += 0x9E3779B97F4A7C15u;
    z = (z ^ z >> 30) * 0xBF58476D1CE4E5B9u;
    z = (z ^ z >> 27) * 0x94D049BB133111EBu;
    return (uint32_t)((z ^ z >> 31) >> 32);
}

/* Good labels mostly; then numbers about the bounds, ends with or without a wrong bit, and any number at all. */
static uint32_t random_label(void)
{
    uint32_t any = random_number(), place = random_number(), level = random_number(), categories = random_number() & 0xFFFFu;
    switch (any % 16) {
    case 0:
        return random_number();
    case 1:
        return (place % 2 ? 0xFF000000u : 0xFE000000u) ^ 1u << level % 32;
    case 2:
        return place % 2 ? 0xFF000000u : 0xFE000000u;
    case 3:
        return (14 + place % 6) << 24 | (5 + level % 6) << 16 | categories;
    default:
        return place % 17 << 24 | level % 8 << 16 | categories;
    }
}

/* Two labels drawn apart seldom have one place, so the second is often made of the first. */
static uint32_t random_partner(uint32_t a)
{
    uint32_t r = random_number();
    switch (r % 4) {
    case 0:
        return random_label();
    case 1:
        return a ^ 1u << (r >> 8) % 32;
    case 2:
        return (a & 0xFF000000u) | (r >> 8) % 8 << 16 | (random_number() & 0xFFFFu);
    default:
        return (a & 0xFF000000u) | (r >> 8) % 8 << 16 | (a & random_number() & 0xFFFFu);
    }
}

static void random_pairs(void)
{
    const uint32_t pairs = 1000000;
    uint32_t i, answered[4] = {0, 0, 0, 0}, climbed = 0;
    for (i = 0; i < pairs; i++) {
        uint32_t a = random_label(), b = random_partner(a), both = expected_join(a, b);
        compare(a, b);
        answered[expected_dominates(a, b)]++;
        climbed += both != a && both != b && both != 0xFF000000u && both != 0xC3000000u;
    }
    part("random pairs of labels", (uint64_t)2 * pairs);
    printf("editor: of these pairs %u dominated, %u not, %u had a bad label; %u joined to a third label of their place\n",
           answered[1], answered[0], answered[3], climbed);
    /* pairs that are all of one sort would show little */
    if (answered[0] < pairs / 20 || answered[1] < pairs / 20 || answered[3] < pairs / 20 || climbed < pairs / 20) {
        faults++;
        printf("editor: random pairs of labels: one sort is under a twentieth\n");
    }
}

/* ---- Bodies a second time, by their fields: v has four bytes, c two, the rest one */

static const struct {
    uint32_t kind;
    const char *fields;
} requests[] = {
    {0x01, "u new sort level c admin"},
    {0x02, "u room"},
    {0x03, "u w room"},
    {0x04, "u w room"},
    {0x05, "u w room level c"},
    {0x06, "u w room"},
    {0x07, "u script v room"},
    {0x08, "u script v room"},
    {0x09, "u script1 v script2 room"},
    {0x0A, "u script v room"},
    {0x0B, "u room"},
    {0x0C, "u w room"},
    {0x0D, "u w room"},
    {0x10, "u s room level c"},
    {0x11, "u s level c"},
    {0x12, "u s level c"},
    {0x13, "s script v"},
    {0x14, "s script v"},
    {0x15, "s script"},
    {0x16, "u s"},
    {0x20, "u"},
};

static uint32_t bytes_of(const char *fields)
{
    uint32_t bytes = 0, letters = 0;
    for (;; fields++)
        if (*fields != ' ' && *fields != '\0')
            letters++;
        else {
            bytes += letters == 1 && fields[-1] == 'v' ? 4 : letters == 1 && fields[-1] == 'c' ? 2 : 1;
            letters = 0;
            if (*fields == '\0')
                return bytes;
        }
}

static uint32_t expected_body_length(uint32_t kind)
{
    uint32_t i;
    for (i = 0; i < COUNT_OF(requests); i++)
        if (requests[i].kind == kind)
            return bytes_of(requests[i].fields);
    return 255;
}

static void compare_body(uint32_t kind)
{
    check_one("desk_body_length", kind, desk_body_length(kind), expected_body_length(kind));
}

/* A wide kind whose low byte, or low half, is that of a known one is unknown all the same. */
static void kinds(void)
{
    uint32_t kind, bit;
    for (kind = 0; kind < 256; kind++)
        compare_body(kind);
    part("kinds of a byte", 256);
    for (kind = 0; kind < 256; kind++) {
        for (bit = 8; bit < 32; bit++)
            compare_body(kind + (1u << bit));
        compare_body(0xFFFFFF00u + kind);
    }
    part("wide kinds", 256 * 25);
    for (kind = 0; kind < 100000; kind++)
        compare_body(random_number());
    part("random kinds", 100000);
}

int main(void)
{
    examples();
    names();
    kinds();
    corners();
    random_pairs();
    if (differences != 0 || faults != 0 || checks == 0) {
        printf("editor: FAILED: %llu checks, %llu different, %llu parts at fault\n", (unsigned long long)checks,
               (unsigned long long)differences, (unsigned long long)faults);
        return 1;
    }
    printf("editor: ok, %llu checks\n", (unsigned long long)checks);
    return 0;
}
