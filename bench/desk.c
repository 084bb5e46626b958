/*
 * The desk's rules in C, written for speed, as a program: what the proved program is measured against.
 *
 * Reads requests from standard input and prints a line for each answer, as the program does, with --last, --rule, --from and --save as there
 * (an image is written over the old one, at once). It is tested against that program on the measured streams and images, and is otherwise
 * not part of the desk.
 */
#include <fcntl.h>
#include <stdint.h>
#include <stdio.h>
#include <stdlib.h>
#include <string.h>
#include <unistd.h>

#include "rules.h"
#include "image.h"

static struct desk desk = {.rule = 1};

/* ---- input and output */

static char out[1 << 16];
static size_t filled;

static void flush(void)
{
    size_t done = 0;
    while (done < filled) {
        ssize_t n = write(1, out + done, filled - done);
        if (n <= 0)
            break;
        done += (size_t)n;
    }
    filled = 0;
}

static void put_number(uint64_t n)
{
    char digits[20];
    unsigned k = 0;
    do
        digits[k++] = (char)('0' + n % 10);
    while (n /= 10);
    while (k)
        out[filled++] = digits[--k];
}

static void put_hex(unsigned byte)
{
    static const char hex[] = "0123456789ABCDEF";
    out[filled++] = hex[byte >> 4];
    out[filled++] = hex[byte & 15];
}

static void line(uint64_t ordinal, unsigned kind, unsigned byte)
{
    if (filled > sizeof out - 64)
        flush();
    put_number(ordinal);
    out[filled++] = ' ';
    put_hex(kind);
    out[filled++] = ' ';
    put_hex(byte);
    out[filled++] = ' ';
    if (byte == 0x81)
        put_number(desk.last);
    else
        out[filled++] = '-';
    out[filled++] = '\n';
}

static int load(const char *name)
{
    static uint8_t image[65537];
    size_t n = 0;
    ssize_t got;
    int refusal, fd = open(name, O_RDONLY);
    if (fd < 0)
        return perror(name), 1;
    while (n < sizeof image && (got = read(fd, image + n, sizeof image - n)) > 0)
        n += (size_t)got;
    close(fd);
    refusal = n == sizeof image ? 15 : open_image(image, n, &desk.current, &desk.last, &desk.rule);
    if (refusal)
        return fprintf(stderr, "desk: %s: refused %d\n", name, refusal), 1;
    desk.base = desk.current;
    return 0;
}

static int save(const char *name)
{
    static uint8_t image[IMAGE_MAX];
    size_t n = image_of(&desk.current, desk.last, desk.rule, image);
    int fd = open(name, O_WRONLY | O_CREAT | O_TRUNC, 0600);
    if (fd < 0 || write(fd, image, n) != (ssize_t)n || close(fd))
        return perror(name), 1;
    return 0;
}

static void serve(void)
{
    static uint8_t in[1 << 16];
    size_t have = 0;
    uint64_t ordinal = 0;
    for (;;) {
        ssize_t got = read(0, in + have, sizeof in - have);
        size_t end = have + (got > 0 ? (size_t)got : 0), at = 0;
        while (at < end) {
            unsigned kind = in[at], length = kind < 33 ? lengths[kind] : 255;
            if (length == 255) {
                line(++ordinal, kind, 0xC1);
                flush();
                return;
            }
            if (end - at <= length)
                break;
            line(++ordinal, kind, answer(&desk, in + at, 1 + length));
            at += 1 + length;
        }
        if (got <= 0) {
            if (at < end)
                line(++ordinal, in[at], 0xC2);
            flush();
            return;
        }
        have = end - at;
        memmove(in, in + at, have);
    }
}

static int open_under(const char *number)
{
    desk.rule = (unsigned)strtoul(number, 0, 10);
    if (desk.rule == 1 || desk.rule == 2)
        return 0;
    return fprintf(stderr, "desk: --rule %u: refused 3\n", desk.rule), 1;
}

int main(int argc, char **argv)
{
    const char *to = 0;
    for (; argc > 2; argc -= 2, argv += 2)
        if (!strcmp(argv[1], "--last"))
            desk.last = (uint32_t)strtoul(argv[2], 0, 10);
        else if (!strcmp(argv[1], "--save"))
            to = argv[2];
        else if (!strcmp(argv[1], "--rule") ? open_under(argv[2]) : strcmp(argv[1], "--from") || load(argv[2]))
            return 1;
    serve();
    return to ? save(to) : 0;
}
