/*
 * Counts what a program copies: loaded before the C library, it stands in for memcpy, memmove and memset, and says on standard
 * error, when the program ends or asks, how often each was called and with how many bytes since it last said so, and how many
 * copies were as large as a table.
 *
 *   gcc -O2 -fno-builtin -shared -fPIC copies.c -o copies.so; LD_PRELOAD=./copies.so PROGRAM
 */
#include <stddef.h>
#include <stdio.h>

enum { TABLE = 1024 }; /* the smallest table of the records, 64 scripts, has 1,024 bytes */

static unsigned long calls[3], bytes[3], tables, table_bytes;

static void count(int which, size_t n)
{
    calls[which]++;
    bytes[which] += n;
    if (which < 2 && n >= TABLE) {
        tables++;
        table_bytes += n;
    }
}

void *memcpy(void *to, const void *from, size_t n)
{
    char *t = to;
    const char *f = from;
    count(0, n);
    while (n--)
        *t++ = *f++;
    return to;
}

void *memmove(void *to, const void *from, size_t n)
{
    char *t = to;
    const char *f = from;
    count(1, n);
    if (t < f)
        while (n--)
            *t++ = *f++;
    else
        while (n--)
            t[n] = f[n];
    return to;
}

void *memset(void *to, int byte, size_t n)
{
    char *t = to;
    count(2, n);
    while (n--)
        *t++ = (char)byte;
    return to;
}

void __attribute__((destructor)) say_copied(void)
{
    int i;
    fprintf(stderr, "memcpy %lu %lu memmove %lu %lu tables %lu %lu memset %lu %lu\n", calls[0], bytes[0], calls[1], bytes[1], tables, table_bytes,
            calls[2], bytes[2]);
    for (i = 0; i < 3; i++)
        calls[i] = bytes[i] = 0;
    tables = table_bytes = 0;
}
