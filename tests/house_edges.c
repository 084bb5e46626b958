/*
 * Speaks as the program `edges` does, in C over house.h, so that the model's batches hold the library to the second desk. A line a case,
 *
 *     NAME LAST ROOM PLACE REQUESTS
 *
 * opens a desk with the last number LAST, under rule 1, or under rule R where LAST is N/R, or goes on where it is +; and sends the requests, in hex with _
 * between them, with ROOM bytes for answers, each EE, from PLACE on. The line printed has the name, the stop, the bytes used, the bytes written, the last
 * number, and every byte of the room. All calls are those of house_pages.h, between pages that can't be touched.
 *
 * Exit status: 0; 1 for a line that is no case.
 */
#include "house_pages.h"

#include <stdlib.h>

#define MOST_INPUT ((size_t)32 << 20)

static char input[MOST_INPUT + 1];

static int no_case(const char *line)
{
    fflush(NULL);
    dprintf(2, "edges: no case: %s\n", line);
    return 1;
}

static int digit_of(char letter)
{
    if (letter >= '0' && letter <= '9')
        return letter - '0';
    if (letter >= 'A' && letter <= 'F')
        return letter - 'A' + 10;
    return letter >= 'a' && letter <= 'f' ? letter - 'a' + 10 : -1;
}

/* The bytes that a word shows, with _ between any two digits; SIZE_MAX where it shows none or too many. */
static size_t bytes_of(const char *word, uint8_t *to, size_t most)
{
    size_t digits = 0;
    for (; *word != '\0'; word++) {
        int digit = digit_of(*word);
        if (*word == '_')
            continue;
        if (digit < 0 || digits == 2 * most)
            return SIZE_MAX;
        to[digits / 2] = (uint8_t)(digits % 2 == 0 ? 16 * digit : to[digits / 2] + digit);
        digits++;
    }
    return digits % 2 == 0 ? digits / 2 : SIZE_MAX;
}

/* The field LAST. */
static void open_anew(desk_t *desk, char *word)
{
    char *end;
    uint32_t last, rule = 1, number;
    if (word[0] == '+')
        return;
    last = (uint32_t)strtoull(word, &end, 10);
    if (*end == '/')
        rule = (uint32_t)strtoull(end + 1, NULL, 10);
    number = paged_open(desk, last, rule);
    if (number != (rule == 1 || rule == 2 ? DESK_OK : DESK_OUT_OF_BOUNDS))
        broken("another answer to the rule", "");
}

static void run_case(desk_t *desk, const char *name, const uint8_t *requests, size_t length, size_t size, size_t place)
{
    static uint8_t answers[MOST_ANSWERS];
    size_t used, written, i;
    uint32_t stop;
    memset(answers, 0xEE, sizeof answers);
    stop = paged_batch(desk, requests, length, answers, size, place, &used, &written);
    printf("%s %u %llu %llu %u ", name, (unsigned)stop, (unsigned long long)used, (unsigned long long)written, (unsigned)desk_last(desk));
    if (size == 0)
        printf("-");
    for (i = 0; i < size; i++)
        printf("%02x", answers[i]);
    printf("\n");
}

/* The fields of a line, which is cut into them. */
static int split(char *line, char **field)
{
    int n;
    for (n = 0; n < 5; n++) {
        field[n] = line;
        while (*line != '\0' && *line != ' ')
            line++;
        if (*line == ' ')
            *line++ = '\0';
    }
    return field[3][0] != '\0' && *line == '\0';
}

int main(void)
{
    static desk_t desk;
    static uint8_t requests[MOST_REQUESTS];
    size_t length = 0, bytes, size;
    ssize_t got;
    char *line, *end, *field[5];
    while (length < sizeof input && (got = read(0, input + length, sizeof input - length)) > 0)
        length += (size_t)got;
    if (length == sizeof input)
        return no_case("more than is read here");
    for (line = input; *line != '\0'; line = end + 1) {
        end = (char *)memchr(line, '\n', length - (size_t)(line - input));
        if (end == NULL)
            return no_case(line);
        *end = '\0';
        if (line[0] == '\0' || line[0] == '#')
            continue;
        if (!split(line, field))
            return no_case(line);
        bytes = bytes_of(field[4], requests, sizeof requests);
        size = (size_t)strtoull(field[2], NULL, 10);
        if (bytes == SIZE_MAX || size > MOST_ANSWERS)
            return no_case(line);
        open_anew(&desk, field[1]);
        run_case(&desk, field[0], requests, bytes, size, (size_t)strtoull(field[3], NULL, 10));
    }
    return fflush(NULL) != 0;
}
