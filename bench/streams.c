/*
 * Writes request streams that measure one thing each.
 *
 *   streams reads D N       D live drafts (at most 256), then N reads of them, in no order
 *   streams take-backs N    a full desk with 32 kept changes, then N times a session opened and taken back
 *   streams disbands N      the same desk, all of it in room 1, then N times the room disbanded and taken back
 *
 * All are granted. How many requests came before the N or 2 N measured ones is said on standard error.
 */
#include <stdint.h>
#include <stdio.h>
#include <stdlib.h>
#include <string.h>

static unsigned long written;

static void request(unsigned n, const uint8_t *bytes)
{
    fwrite(bytes, 1, n, stdout);
    written++;
}

#define REQUEST(...) request(sizeof(uint8_t[]){__VA_ARGS__}, (const uint8_t[]){__VA_ARGS__})

/* draft v, from 1 on, is one of script (v - 1) % 64 */
#define SCRIPT(v) (uint8_t)(((v) - 1) % 64)
#define NUMBER(v) 0, 0, (uint8_t)((v) >> 8), (uint8_t)(v)

/* an administrator, room 1, a house session, and so many drafts */
static void house(unsigned drafts)
{
    unsigned v;
    REQUEST(0x01, 0, 0, 0, 7, 0xFF, 0xFF, 1);
    REQUEST(0x02, 0, 1);
    REQUEST(0x03, 0, 0, 1);
    REQUEST(0x11, 0, 0, 7, 0xFF, 0xFF);
    for (v = 1; v <= drafts; v++)
        if (v <= 64)
            REQUEST(0x15, 0, SCRIPT(v));
        else
            REQUEST(0x14, 0, SCRIPT(v), NUMBER(SCRIPT(v) + 1u));
}

/* 64 users in room 1, 256 drafts in house and room, 62 sessions that write in the room */
static void full_house(void)
{
    unsigned i;
    house(256);
    for (i = 1; i <= 256; i++)
        REQUEST(0x07, 0, SCRIPT(i), NUMBER(i), 1);
    for (i = 1; i < 64; i++) {
        REQUEST(0x01, 0, (uint8_t)i, 0, 7, 0xFF, 0xFF, 0);
        REQUEST(0x03, 0, (uint8_t)i, 1);
    }
    for (i = 1; i < 63; i++)
        REQUEST(0x10, (uint8_t)i, (uint8_t)i, 1, 0, 0, 0);
}

static void reads(unsigned drafts, unsigned long n)
{
    uint32_t x = 1;
    house(drafts);
    fprintf(stderr, "%lu\n", written);
    while (n--) {
        unsigned v;
        x = x * 1664525u + 1013904223u;
        v = 1 + (x >> 16) % drafts;
        REQUEST(0x13, 0, SCRIPT(v), NUMBER(v));
    }
}

static void pairs(int disbands, unsigned long n)
{
    full_house();
    fprintf(stderr, "%lu\n", written);
    while (n--) {
        if (disbands)
            REQUEST(0x0B, 0, 1);
        else
            REQUEST(0x12, 0, 63, 0, 0, 0);
        REQUEST(0x20, 0);
    }
}

int main(int argc, char **argv)
{
    if (argc == 4 && !strcmp(argv[1], "reads") && atoi(argv[2]) >= 1 && atoi(argv[2]) <= 256)
        reads((unsigned)atoi(argv[2]), strtoul(argv[3], 0, 10));
    else if (argc == 3 && !strcmp(argv[1], "take-backs"))
        pairs(0, strtoul(argv[2], 0, 10));
    else if (argc == 3 && !strcmp(argv[1], "disbands"))
        pairs(1, strtoul(argv[2], 0, 10));
    else {
        fputs("streams reads D N | take-backs N | disbands N\n", stderr);
        return 2;
    }
    return 0;
}
