/*
 * Desks of random bytes, and desks that are damaged, through every call of house.h. What is promised of each content of a desk_t is checked: every call ends,
 * stays within what it was lent (house_pages.h), gives the same again, and gives one of its answers, with counts that fit; a reason agrees with the answer; a
 * refused request leaves the desk as it was; and once it is opened again, or an image is, the desk answers as the documents say.
 *
 *     house_random SEED COUNT   COUNT desks from that seed
 *
 * C99, and C++17 as well. Says the first difference in full. The last line has the number of checks. Exit status: 0 no difference, else 1.
 */
#include "house_pages.h"

#include <stdlib.h>

#include "house_checks.h"

static uint64_t seed;
static desk_t used_desk; /* as the document's run leaves it */

/* ---- Desks and requests by chance */

static void random_bytes(void *to, size_t length)
{
    uint8_t *at = (uint8_t *)to;
    for (; length > 0; length--)
        *at++ = (uint8_t)(random_number(&seed) >> 56);
}

static void damage(desk_t *desk)
{
    static const uint8_t few[] = {0, 1, 2, 0x1F, 0x20, 0x21, 0x80, 0xFF};
    size_t i;
    uint8_t *bytes = (uint8_t *)desk;
    *desk = used_desk;
    switch (below(&seed, 5)) {
    case 0:
        random_bytes(desk, sizeof *desk);
        break;
    case 1: /* a few bytes of a used one */
        for (i = 1 + below(&seed, 40); i > 0; i--)
            bytes[below(&seed, DESK_SIZE)] = (uint8_t)below(&seed, 256);
        break;
    case 2: /* its kept changes */
        random_bytes(desk->log, sizeof desk->log);
        break;
    case 3: /* its records */
        random_bytes(below(&seed, 2) ? desk->base : desk->current, sizeof desk->base);
        break;
    default: /* bytes about the bounds */
        for (i = 0; i < DESK_SIZE; i++)
            bytes[i] = few[below(&seed, COUNT_OF(few))];
    }
    if (below(&seed, 4) == 0)
        desk->rule = below(&seed, 4);
    if (below(&seed, 4) == 0)
        desk->last = 0u - below(&seed, 3);
    /* where the count of the kept changes stands is not known here, so that each byte of the log is tried */
    if (below(&seed, 2))
        desk->log[below(&seed, sizeof desk->log)] = few[below(&seed, COUNT_OF(few))];
}

/* One request, mostly with small fields and of a known kind; its length. */
static size_t random_request(uint8_t *to)
{
    uint32_t kind = below(&seed, 40), body, i, bound = below(&seed, 4) ? 3 : below(&seed, 4) ? 65 : 256;
    to[0] = (uint8_t)kind;
    body = desk_body_length(kind);
    if (body == DESK_UNKNOWN_KIND)
        body = below(&seed, 9);
    for (i = 1; i <= body; i++)
        to[i] = (uint8_t)below(&seed, bound);
    /* a draft's number is seldom over 3 */
    if (body >= 6 && below(&seed, 4))
        to[3] = to[4] = to[5] = 0;
    return body + 1;
}

/* ---- The calls */

static void numbers_of(const desk_t *desk)
{
    check("kept changes over 32", 0, paged_number(desk_kept, "desk_kept", desk) > 32, 0);
    check("rule", desk->rule, paged_number(desk_rule, "desk_rule", desk), desk->rule == 2 ? 2 : 1);
    check("last number", 0, paged_number(desk_last, "desk_last", desk), desk->last);
}

static int is_refusal(uint32_t number)
{
    return (number >= 3 && number <= 12) || number == 16;
}

/* A reason, then the request it is of: whole, or cut at any byte. */
static void asked(desk_t *desk)
{
    uint8_t request[16], answer[DESK_ANSWER_MAX] = {0, 0, 0, 0, 0};
    desk_reason reason;
    desk_t before = *desk;
    size_t length = random_request(request), used, written;
    uint32_t body = desk_body_length(request[0]), number, stop;
    if (below(&seed, 5) == 0)
        length = below(&seed, (uint32_t)length + 1);
    number = paged_why(desk, request, length, &reason);
    stop = paged_batch(desk, request, length, answer, sizeof answer, 0, &used, &written);
    check("number of a reason", number, reason.number, number);
    if (length == 0 || body == DESK_UNKNOWN_KIND || length < 1 + body) {
        check("reason of no request", request[0], number, length > 0 && body == DESK_UNKNOWN_KIND ? 1 : 2);
        check("stop of no request", request[0], stop, length == 0 ? 0 : number);
        check("used of no request", request[0], used, 0);
    } else {
        check("reason of a request", number, number == DESK_OK || is_refusal(number), 1);
        check("stop of a request", request[0], stop, DESK_STOP_END);
        check("used of a request", request[0], used, length);
        check("answer as the reason says", request[0], number == DESK_OK ? answer[0] == 0x80 || answer[0] == 0x81 : answer[0] == 0xC0 + number, 1);
    }
    check("written", request[0], written, length == 0 ? 0 : answer[0] == DESK_NUMBERED ? 5 : 1);
    if (number != DESK_OK)
        check_bytes("a refused request changes nothing", number, desk, &before, sizeof before);
}

/* Many requests into any room. */
static void many(desk_t *desk)
{
    uint8_t requests[200], answers[64];
    size_t length = 0, size = below(&seed, sizeof answers + 1), place = below(&seed, (uint32_t)size + 3), used, written;
    uint32_t stop;
    while (length < sizeof requests - 16)
        length += random_request(requests + length);
    random_bytes(answers, sizeof answers);
    stop = paged_batch(desk, requests, length, answers, size, place, &used, &written);
    check("a stop", stop, stop == 0 || stop == 1 || stop == 2 || stop == 13, 1);
    check("used", stop, stop == 0 ? used == length : used < length, 1);
    check("written", stop, place <= size ? written <= size - place : written == 0, 1);
    check("stop 13 for want of room", stop, stop != 13 || size < place + written + 5, 1);
}

static void take_backs(desk_t *desk)
{
    uint32_t i, before = desk_kept(desk), now;
    for (i = 0; i < 34; i++, before = now) {
        uint8_t back[] = {DESK_TAKE_BACK, 0}, answer[DESK_ANSWER_MAX] = {0, 0, 0, 0, 0};
        size_t used, written;
        back[1] = (uint8_t)below(&seed, 3);
        desk_batch(desk, back, sizeof back, answer, sizeof answer, 0, &used, &written);
        now = desk_kept(desk);
        check("kept changes after a take-back", before, now, answer[0] == DESK_GRANTED ? before - 1 : before);
    }
}

/* An image is saved where there is room, and it opens or not; where it does, it is the image of what was opened. */
static void images(desk_t *desk)
{
    static uint8_t buffer[DESK_IMAGE_MAX + 8], again[DESK_IMAGE_MAX];
    size_t size = below(&seed, 4) ? below(&seed, DESK_IMAGE_MAX + 8) : below(&seed, 9), written, length;
    uint32_t number;
    random_bytes(buffer, sizeof buffer);
    check("room for any image", 0, paged_save(desk, buffer, DESK_IMAGE_MAX, &length), DESK_OK);
    number = paged_save(desk, again, size < sizeof again ? size : sizeof again, &written);
    check("save", length, number, size < length ? DESK_TOO_SHORT : DESK_OK);
    check("saved bytes", length, written, size < length ? 0 : length);
    if (below(&seed, 4) == 0) { /* or an image that was changed */
        length = sizeof run_image;
        memcpy(buffer, run_image, length);
        buffer[below(&seed, (uint32_t)length)] = (uint8_t)below(&seed, 256);
    }
    if (below(&seed, 8) == 0)
        length = below(&seed, (uint32_t)length + 1);
    number = paged_load(desk, buffer, length);
    check("load", number, number == DESK_OK || number == DESK_TOO_SHORT || number == DESK_NO_IMAGE, 1);
    check("kept changes of an image", number, desk_kept(desk), 0);
    check("image of it", number, paged_save(desk, again, sizeof again, &written), DESK_OK);
    check("image of it", number, written, number == DESK_OK ? length : 5);
    if (number == DESK_OK)
        check_bytes("image of it", number, again, buffer, length);
    else
        check_bytes("image of it", number, again, "\x40\0\0\0", 5);
}

/* Whatever was in it before, an opened desk gives the document's answers. */
static void opened(desk_t *desk)
{
    uint8_t answers[sizeof run_answers + 4];
    size_t used, written;
    memset(answers, 0xEE, sizeof answers);
    if (below(&seed, 2))
        check("open", 0, paged_open(desk, 0, 1), DESK_OK);
    else if (below(&seed, 2))
        check("open", 0, paged_open(desk, 5, 3 + below(&seed, 9)), DESK_OUT_OF_BOUNDS);
    else
        check("load", 0, paged_load(desk, (const uint8_t *)"\x40\0\0\0", 5), DESK_OK);
    check("the run", 0, paged_batch(desk, run, sizeof run, answers, sizeof answers, 0, &used, &written), DESK_STOP_END);
    check("the run", 0, written, sizeof run_answers);
    check_bytes("the run", 0, answers, run_answers, sizeof run_answers);
    check("kept changes", 0, desk_kept(desk), run_kept[RUN]);
}

int main(int words, char **word)
{
    static desk_t desk;
    uint8_t answers[64];
    size_t used, written;
    unsigned long long count = words == 3 ? strtoull(word[2], NULL, 10) : 0, i;
    if (count == 0) {
        printf("house: usage: house_random SEED COUNT\n");
        return 1;
    }
    seed = strtoull(word[1], NULL, 10);
    desk_open(&used_desk, 0, 1);
    desk_batch(&used_desk, run, sizeof run, answers, sizeof answers, 0, &used, &written);
    for (i = 0; i < count; i++) {
        int n;
        damage(&desk);
        numbers_of(&desk);
        for (n = 0; n < 8; n++)
            asked(&desk);
        if (below(&seed, 2))
            many(&desk);
        if (below(&seed, 2))
            take_backs(&desk);
        numbers_of(&desk);
        images(&desk);
        if (below(&seed, 4) == 0) {
            damage(&desk);
            many(&desk);
        }
        opened(&desk);
    }
    part("desks of random bytes", count * 50);
    return verdict();
}
