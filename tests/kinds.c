/*
 * The body's length of every kind from 0 to 70,000 and of the last thousand of 32 bits, beside a table: desk_body_length, which has none
 * (02, L5), answers as if it looked them up, for unknown kinds too.
 *
 * Prints how many it asked for. Exit status: 0 all as in the table; 1 one is not.
 */
#include "desk.h"
#include <stdio.h>

/* The table as the desk had it, kinds 00 to 20 (hex), with 0C and 0D, which came later (02, L6). */
static const unsigned char table[33] = {
    255, 7,   2,   3,   3,   6,   3,   7,   7,   8,   7,   2,   3,   3,   255, 255, 6,
    5,   5,   6,   6,   2,   2,   255, 255, 255, 255, 255, 255, 255, 255, 255, 1,
};

static unsigned long asked = 0, different = 0;

static void ask(uint32_t kind)
{
    uint32_t expected = kind < sizeof table ? table[kind] : 255, answer = desk_body_length(kind);
    asked++;
    if (answer != expected) {
        different++;
        printf("editor: kind %lX: %lu, and %lu in the table\n", (unsigned long)kind, (unsigned long)answer, (unsigned long)expected);
    }
}

int main(void)
{
    uint32_t i;
    for (i = 0; i <= 70000; i++)
        ask(i);
    for (i = 0; i < 1000; i++)
        ask(0xFFFFFFFFu - i);
    printf("editor: kinds as in the table: %lu asked, %lu different\n", asked, different);
    return asked != 71001 || different != 0;
}
