/*
 * Speaks as the program `desk` does, in C over house.h, so that the tests of that program hold the library to the second desk:
 *
 *     house_desk [--last N | --from IMAGE] [--rule R] [--save IMAGE] [--why] <requests >lines
 *
 * The requests go through desk_batch in pieces of changing length, which end anywhere, with little room for answers that start at changing places. With --why
 * they go one at a time, each asked for its reason before, and after where it is refused. All calls are those of house_pages.h, between pages that can't be
 * touched. Files are read and written plainly: how `desk` itself saves is not tried here.
 *
 * Exit status: 0; 1 where standard error has a line.
 */
#include "house_pages.h"

#include <errno.h>
#include <fcntl.h>
#include <stdlib.h>

#define MOST_INPUT ((size_t)8 << 20)

static uint8_t input[MOST_INPUT + 1], image[MOST_IMAGE + 1];
static size_t ordinal;

typedef struct {
    const char *last, *rule, *from, *save;
    int why;
} arguments;

/* ---- Words */

/* Decimal digits, below 2 ^ 32. */
static int number_of(const char *word, uint32_t *number)
{
    uint64_t value = 0;
    if (*word == '\0')
        return 0;
    for (; *word != '\0'; word++) {
        if (*word < '0' || *word > '9' || (value = value * 10 + (uint64_t)(*word - '0')) > 0xFFFFFFFFu)
            return 0;
    }
    *number = (uint32_t)value;
    return 1;
}

/* Each at most once; the word behind it is its value. */
static int taken(arguments *given, int words, char **word)
{
    static const char *const names[] = {"--last", "--rule", "--from", "--save"};
    const char **values[4];
    int i, n;
    values[0] = &given->last, values[1] = &given->rule, values[2] = &given->from, values[3] = &given->save;
    for (i = 1; i < words; i++) {
        if (strcmp(word[i], "--why") == 0) {
            if (given->why++)
                return 0;
            continue;
        }
        for (n = 0; n < 4 && strcmp(word[i], names[n]) != 0; n++)
            continue;
        if (n == 4 || *values[n] != NULL || i + 1 == words)
            return 0;
        *values[n] = word[++i];
    }
    return given->from == NULL || (given->last == NULL && given->rule == NULL);
}

/* ---- Files */

/* Everything to the end, at most so many bytes; SIZE_MAX where it can't be read. */
static size_t read_all(int file, uint8_t *to, size_t most)
{
    size_t length = 0;
    ssize_t got;
    while (length < most && (got = read(file, to + length, most - length)) != 0) {
        if (got < 0)
            return SIZE_MAX;
        length += (size_t)got;
    }
    return length;
}

static int says(const char *name, const char *what)
{
    dprintf(2, "desk: %s: %s\n", name, what);
    return 1;
}

/* Opens the image in the file; 1 where it said why not. */
static int opened_from(desk_t *desk, const char *name)
{
    int file = open(name, O_RDONLY);
    size_t length = file < 0 ? SIZE_MAX : read_all(file, image, MOST_IMAGE + 1);
    uint32_t number;
    if (length == SIZE_MAX)
        return says(name, strerror(errno));
    close(file);
    number = length > MOST_IMAGE ? DESK_NO_IMAGE : paged_load(desk, image, length);
    if (number != DESK_OK)
        dprintf(2, "desk: %s: refused %u\n", name, (unsigned)number);
    return number != DESK_OK;
}

/* The image, into a buffer for any, into one of its own length, and into one that is a byte too short. */
static size_t image_of(const desk_t *desk)
{
    static uint8_t exact[DESK_IMAGE_MAX];
    size_t length, written;
    memset(image, 0xEE, DESK_IMAGE_MAX);
    if (paged_save(desk, image, DESK_IMAGE_MAX, &length) != DESK_OK)
        broken("no room in the buffer for any image", "");
    if (paged_save(desk, exact, length, &written) != DESK_OK || written != length || memcmp(exact, image, length) != 0)
        broken("another image in a buffer of its length", "");
    if (paged_save(desk, exact, length - 1, &written) != DESK_TOO_SHORT || written != 0)
        broken("an image in a buffer that is too short", "");
    return length;
}

static int saved(const desk_t *desk, const char *name)
{
    size_t length = image_of(desk);
    int file = open(name, O_WRONLY | O_CREAT | O_TRUNC, 0666);
    if (file < 0 || write(file, image, length) != (ssize_t)length || close(file) != 0)
        return says(name, strerror(errno));
    return 0;
}

/* ---- Lines */

static size_t print_answer(uint8_t kind, const uint8_t *answer, const desk_reason *reason)
{
    size_t length = answer[0] == DESK_NUMBERED ? DESK_ANSWER_MAX : 1;
    printf("%llu %02X %02X ", (unsigned long long)++ordinal, kind, answer[0]);
    if (length == 1)
        printf("-");
    else
        printf("%u", (unsigned)answer[1] << 24 | (unsigned)answer[2] << 16 | (unsigned)answer[3] << 8 | (unsigned)answer[4]);
    if (reason != NULL)
        printf(" %u %02X %u %u %u", (unsigned)reason->number, (unsigned)reason->kind, (unsigned)reason->id, (unsigned)reason->first,
               (unsigned)reason->second);
    printf("\n");
    return length;
}

/* A line for each answer; the last may be of the request at `used`, which is none. */
static void print_answers(const uint8_t *requests, size_t used, const uint8_t *answers, size_t written)
{
    size_t at = 0, from = 0;
    while (from < written) {
        uint8_t kind = requests[at];
        from += print_answer(kind, answers + from, NULL);
        at += at < used ? 1 + desk_body_length(kind) : 0;
    }
    if (at != used || from != written)
        broken("counts that are not those of the answers", "");
}

static uint32_t chance(uint32_t bound)
{
    static uint64_t state = 7;
    state = state * 6364136223846793005u + 1442695040888963407u;
    return (uint32_t)(state >> 33) % bound;
}

/* Pieces of the input, each of some bytes more where the one before was cut. */
static void judge(desk_t *desk, size_t length)
{
    uint8_t answers[64];
    size_t at = 0, used, written;
    uint32_t stop = DESK_STOP_NO_ROOM, longer = 0, idle = 0;
    while (at < length && stop != DESK_STOP_UNKNOWN) {
        size_t size = chance(48), place = chance(9), whole = 1 + chance(64) + longer;
        if (whole > length - at)
            whole = length - at;
        memset(answers, 0xEE, sizeof answers);
        stop = paged_batch(desk, input + at, whole, answers, size, place, &used, &written);
        longer = stop == DESK_STOP_CUT ? 9 : 0;
        /* a request that only the piece cuts is sent again */
        if (stop == DESK_STOP_CUT && at + whole < length)
            written--;
        print_answers(input + at, used, answers + place, written);
        if (stop == DESK_STOP_CUT && at + whole == length)
            return;
        at += used;
        idle = used == 0 ? idle + 1 : 0;
        if (idle > 1000)
            broken("no request is answered any more", "");
    }
}

/* One at a time, with up to three bytes of the next: a reason reads none of them. */
static void judge_with_reasons(desk_t *desk, size_t length)
{
    size_t at = 0, used, written;
    uint32_t stop = DESK_STOP_END;
    while (at < length && stop == DESK_STOP_END) {
        uint8_t answer[DESK_ANSWER_MAX] = {0, 0, 0, 0, 0};
        uint32_t body = desk_body_length(input[at]), number;
        size_t whole = body < length - at ? 1 + body : length - at, more = whole + chance(4);
        desk_reason before, after;
        number = paged_why(desk, input + at, more < length - at ? more : length - at, &before);
        stop = paged_batch(desk, input + at, whole, answer, sizeof answer, 0, &used, &written);
        calling = "desk_why and desk_batch";
        if (number != before.number || (number == 0 ? answer[0] >= DESK_REFUSED : answer[0] != DESK_REFUSED + number))
            broken("a reason of another answer", "");
        if (number != 0 && (paged_why(desk, input + at, whole, &after) != number || memcmp(&before, &after, sizeof after) != 0))
            broken("another reason after the refusal", "");
        calling = "desk_batch";
        if (print_answer(input[at], answer, &before) != written || (stop == DESK_STOP_END) != (used == whole && used > 0))
            broken("counts that are not those of the answer", "");
        at += used;
    }
}

int main(int words, char **word)
{
    static desk_t desk;
    arguments given = {NULL, NULL, NULL, NULL, 0};
    uint32_t last = 0, rule = 1;
    size_t length;
    if (!taken(&given, words, word) || (given.last != NULL && !number_of(given.last, &last)) || (given.rule != NULL && !number_of(given.rule, &rule)))
        return says("usage", "desk [--last N | --from IMAGE] [--rule R] [--save IMAGE] [--why]");
    memset(&desk, 0xEE, sizeof desk);
    if (given.from != NULL && opened_from(&desk, given.from))
        return 1;
    if (given.from == NULL && paged_open(&desk, last, rule) != DESK_OK) {
        dprintf(2, "desk: --rule %u: refused 3\n", (unsigned)rule);
        return 1;
    }
    length = read_all(0, input, sizeof input);
    if (length > MOST_INPUT)
        return says("standard input", length == SIZE_MAX ? strerror(errno) : "more than is read here");
    if (given.why)
        judge_with_reasons(&desk, length);
    else
        judge(&desk, length);
    if (fflush(NULL) != 0)
        return says("standard output", strerror(errno));
    return given.save != NULL && saved(&desk, given.save);
}
