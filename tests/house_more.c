/*
 * More calls of the whole desk, through house.h, from C and C++: images into every buffer and back, desks that are copied, two desks beside each other,
 * reasons, and requests that are cut at every byte. The calls go through house_pages.h, between pages that can't be touched.
 *
 *     house_more                  all of that
 *     house_more before | behind  touches the page before or behind what is lent, which has to end it
 *
 * C99, and C++17 as well. Says the first difference in full. The last line has the number of checks. Exit status: 0 no difference, else 1.
 */
#include "house_pages.h"

#include "house_checks.h"

static void run_all(desk_t *desk)
{
    uint8_t answers[sizeof run_answers + 4];
    size_t used, written;
    memset(answers, 0xEE, sizeof answers);
    desk_open(desk, 0, 1);
    check("the run", 0, paged_batch(desk, run, sizeof run, answers, sizeof answers, 0, &used, &written), DESK_STOP_END);
    check_bytes("the run", 0, answers, run_answers, sizeof run_answers);
}

/* One request of the run, and its answer as the document has it, with numbers that are so much higher. */
static void step(const char *what, desk_t *desk, const uint8_t *requests, size_t n, uint32_t higher)
{
    uint8_t answers[DESK_ANSWER_MAX] = {0, 0, 0, 0, 0};
    const uint8_t *expected = run_answers + run_answer_end[n];
    size_t used, written, length = run_answer_end[n + 1] - run_answer_end[n];
    paged_batch(desk, requests + run_end[n], run_end[n + 1] - run_end[n], answers, sizeof answers, 0, &used, &written);
    check(what, n + 1, written, length);
    check(what, n + 1, answers[0], expected[0]);
    if (length == DESK_ANSWER_MAX)
        check(what, n + 1, (uint32_t)answers[1] << 24 | (uint32_t)answers[2] << 16 | (uint32_t)answers[3] << 8 | answers[4], expected[4] + higher);
}

/* ---- Images */

/* Into every size of buffer: none but the image's own and longer ones have room, and a byte that is not written stays. */
static void save_everywhere(const desk_t *desk, const uint8_t *image, size_t length)
{
    uint8_t buffer[sizeof run_image + 3];
    size_t size, written, i;
    for (size = 0; size <= length + 3; size++) {
        memset(buffer, 0xEE, sizeof buffer);
        written = 99;
        check("save", size, paged_save(desk, buffer, size, &written), size < length ? DESK_TOO_SHORT : DESK_OK);
        check("saved bytes", size, written, size < length ? 0 : length);
        if (size >= length)
            check_bytes("image", size, buffer, image, length);
        for (i = written; i < sizeof buffer; i++)
            check("a byte that stays", i, buffer[i], 0xEE);
    }
}

static void saves(void)
{
    static const uint8_t empty[] = {0x40, 0xFF, 0xFF, 0xFF, 0xFE, 0x46};
    desk_t desk;
    run_all(&desk);
    save_everywhere(&desk, run_image, sizeof run_image);
    desk_open(&desk, 0xFFFFFFFEu, 1);
    save_everywhere(&desk, empty, 5);
    desk_open(&desk, 0xFFFFFFFEu, 2);
    save_everywhere(&desk, empty, 6);
    part("images into every size of buffer", 8222);
}

/* What comes after the run, with its answers: Update, Read, Add, Establish, Kill and Take back, by who may and who may not. */
static const uint8_t later[] = {
    0x14, 0, 0, 0, 0, 0, 1, 0x13, 1, 0, 0, 0, 0, 1, 0x13, 1, 0, 0, 0, 0, 4, 0x07, 0, 0, 0, 0, 0, 4, 1,
    0x13, 1, 0, 0, 0, 0, 4, 0x02, 0, 1, 0x16, 1, 0, 0x20, 1,
};
static const uint8_t later_answers[] = {0x81, 0, 0, 0, 4, 0x80, 0xC8, 0x80, 0x80, 0xC5, 0xC6, 0xC6};

static void check_later(const char *what, desk_t *desk)
{
    uint8_t answers[sizeof later_answers + 4];
    size_t used, written;
    memset(answers, 0xEE, sizeof answers);
    check(what, 0, paged_batch(desk, later, sizeof later, answers, sizeof answers, 0, &used, &written), DESK_STOP_END);
    check(what, 0, written, sizeof later_answers);
    check_bytes(what, 0, answers, later_answers, sizeof later_answers);
}

/* An opened image answers as the desk that was saved; no change is kept. */
static void loads(void)
{
    const uint8_t back[] = {DESK_TAKE_BACK, 0};
    desk_t desk, other;
    uint8_t buffer[DESK_IMAGE_MAX], answer[DESK_ANSWER_MAX] = {0, 0, 0, 0, 0};
    size_t used, taken, written;
    int fill;
    memset(buffer, 0xEE, sizeof buffer);
    run_all(&desk);
    check("save", 0, paged_save(&desk, buffer, sizeof buffer, &written), DESK_OK);
    for (fill = 0; fill < 256; fill += 51) {
        memset(&other, fill, sizeof other);
        check("load", 0, paged_load(&other, buffer, written), DESK_OK);
        check("last number of an image", 0, desk_last(&other), 3);
        check("rule of an image", 0, desk_rule(&other), 1);
        check("kept changes of an image", 0, paged_number(desk_kept, "desk_kept", &other), 0);
        paged_batch(&other, back, sizeof back, answer, sizeof answer, 0, &used, &taken);
        check("a take-back after opening", 0, answer[0], DESK_REFUSED + DESK_NOTHING_KEPT);
        check_later("after opening", &other);
        check("kept changes after opening", 0, desk_kept(&other), 2);
    }
    check_later("in one piece", &desk);
    part("an image that was saved is opened", 3 + 6 * 9 + 3);
}

/* Each cut of the image: inside a record it is 14, between two it is what the records before keep of the record rules. */
static void cut_images(void)
{
    /* 20: the room that is led is missing, 35 too, 43: the script has no draft, 51 and 59 too */
    static const size_t ends[] = {5, 20, 35, 37, 43, 51, 59, 69, 79};
    static const uint32_t numbers[] = {0, 15, 15, 0, 15, 15, 15, 0, 0};
    static const uint8_t none[] = {0x40, 0, 0, 0, 0};
    desk_t desk;
    uint8_t buffer[sizeof run_image];
    size_t length, written, i = 0;
    for (length = 0; length <= sizeof run_image; length++) {
        uint32_t number = length == ends[i] ? numbers[i++] : DESK_TOO_SHORT;
        run_all(&desk);
        memset(buffer, 0xEE, sizeof buffer);
        check("cut image", length, paged_load(&desk, run_image, length), number);
        check("kept changes", length, desk_kept(&desk), 0);
        check("last number", length, desk_last(&desk), number == DESK_OK ? 3 : 0);
        check("rule", length, desk_rule(&desk), 1);
        check("image of it", length, paged_save(&desk, buffer, sizeof buffer, &written), DESK_OK);
        check("image of it", length, written, number == DESK_OK ? length : sizeof none);
        check_bytes("image of it", length, buffer, number == DESK_OK ? run_image : none, written);
    }
    part("every cut of an image", 80 * 9);
}

/* ---- Copies, and two desks */

/* After each request of the run a copy is made: it takes all back that is kept, and the desk goes on as if there were none. */
static void copies(void)
{
    const uint8_t back[] = {DESK_TAKE_BACK, 0};
    desk_t desk, copy, second;
    size_t n, i, used, written;
    uint32_t k, kept_now;
    for (n = 0; n <= RUN; n++) {
        desk_open(&desk, 0, 1);
        for (i = 0; i < n; i++)
            step("before the copy", &desk, run, i, 0);
        copy = desk;
        memcpy(&second, &desk, sizeof second);
        kept_now = desk_kept(&copy);
        for (k = 0; k < kept_now; k++) {
            uint8_t answer[DESK_ANSWER_MAX] = {0, 0, 0, 0, 0};
            paged_batch(&copy, back, sizeof back, answer, sizeof answer, 0, &used, &written);
            check("a take-back on the copy", n, answer[0], DESK_GRANTED);
            if (n + k < RUN)
                step("beside the copy", &desk, run, n + k, 0);
        }
        check("kept on the copy", n, desk_kept(&copy), 0);
        for (i = n + kept_now; i < RUN; i++)
            step("behind the copy", &desk, run, i, 0);
        check("kept on the desk", n, desk_kept(&desk), run_kept[RUN]);
        check("kept on the second copy", n, desk_kept(&second), run_kept[n]);
        for (i = n; i < RUN; i++)
            step("the second copy", &second, run, i, 0);
        check("all three of one run", n, memcmp(&desk, &second, sizeof desk) == 0, 1);
        check("last number of the copy", n, desk_last(&copy), n < 6 ? 0 : n < 11 ? 1 : n < 13 ? 2 : 3);
    }
    part("copies", 973);
}

/* The run with draft numbers that are so much higher: v stands behind kind, u or s, and script. */
static void raised(uint8_t *to, uint32_t higher)
{
    size_t n;
    memcpy(to, run, sizeof run);
    for (n = 0; n < RUN; n++) {
        uint8_t *at = to + run_end[n];
        uint32_t v;
        int i;
        if (at[0] != DESK_READ && at[0] != DESK_UPDATE && at[0] != DESK_ADD)
            continue;
        v = at[6] + higher;
        for (i = 0; i < 4; i++)
            at[3 + i] = (uint8_t)(v >> (24 - 8 * i) & 0xFFu);
    }
}

/* Two desks with the run each, under other rules and numbers, in turns by chance: each answers as alone, and none moves while the other is asked. */
static void two_desks(void)
{
    uint64_t seed = 19;
    uint8_t second[sizeof run];
    desk_t desks[2], before;
    int turns;
    for (turns = 0; turns < 2000; turns++) {
        size_t at[2] = {0, 0};
        uint32_t higher = (uint32_t)random_number(&seed) >> below(&seed, 24);
        higher = higher > 0xFFFFFFF0u ? 7 : higher;
        raised(second, higher);
        desk_open(&desks[0], 0, 1);
        desk_open(&desks[1], higher, 2);
        while (at[0] + at[1] < 2 * RUN) {
            int next = at[0] == RUN || (at[1] < RUN && below(&seed, 2));
            before = desks[!next];
            step(next ? "the second desk" : "the first desk", &desks[next], next ? second : run, at[next], next ? higher : 0);
            at[next]++;
            check("the other desk stays", at[0] + at[1], memcmp(&before, &desks[!next], sizeof before) == 0, 1);
        }
        check("last number of the first", higher, desk_last(&desks[0]), 3);
        check("last number of the second", higher, desk_last(&desks[1]), higher + 3);
        check("rules", higher, desk_rule(&desks[0]) * 10 + desk_rule(&desks[1]), 12);
        check("kept changes", higher, desk_kept(&desks[0]) * 100 + desk_kept(&desks[1]), run_kept[RUN] * 101);
    }
    part("two desks", 2000 * (30 * 3 + 6 + 4));
}

/* ---- Reasons, and requests that are none */

static void check_reason(const char *what, uint64_t at, const desk_t *desk, const uint8_t *request, size_t length, desk_reason expected)
{
    desk_reason got;
    check(what, at, paged_why(desk, request, length, &got), expected.number);
    check("number of a reason", at, got.number, expected.number);
    check("kind of a reason", at, got.kind, expected.kind);
    check("id of a reason", at, got.id, expected.id);
    check("what the record holds", at, got.first, expected.first);
    check("what was wanted", at, got.second, expected.second);
}

/* The reasons of the run: three are refused. Asked before the request and, where it is refused, again behind it. */
static void reasons(void)
{
    desk_t desk;
    size_t n;
    desk_open(&desk, 0, 1);
    for (n = 0; n < RUN; n++) {
        desk_reason expected = {0, 0, 0, 0, 0};
        if (n == 7 || n == 13) { /* the draft is in the house, the reader in room 1 */
            desk_reason place = {8, DESK_DRAFT, 1, 1, 2};
            place.id = n == 7 ? 1 : 3;
            expected = place;
        }
        if (n == 14) { /* draft 2 was taken back */
            desk_reason no_draft = {4, DESK_NO_RECORD, 0, 2, 0};
            expected = no_draft;
        }
        /* alone, and with all that comes behind it */
        check_reason("reason", n, &desk, run + run_end[n], run_end[n + 1] - run_end[n], expected);
        check_reason("reason", n, &desk, run + run_end[n], sizeof run - run_end[n], expected);
        step("between reasons", &desk, run, n, 0);
        if (expected.number != DESK_OK)
            check_reason("reason behind", n, &desk, run + run_end[n], run_end[n + 1] - run_end[n], expected);
    }
    part("reasons of the document's run", RUN * 12 + 33 + 18);
}

/* The lengths of the bodies of kinds 00 to 20, by the document's table; 255 for none. */
static const uint8_t body_lengths[33] = {
    255, 7, 2, 3, 3, 6, 3, 7, 7, 8, 7, 2, 3, 3, 255, 255, 6, 5, 5, 6, 6, 2, 2, 255, 255, 255, 255, 255, 255, 255, 255, 255, 1,
};

/* Every kind, with every number of bytes of one value behind it: unknown, cut, or whole with a next request behind. */
static void check_frame(const desk_t *before, uint32_t kind, size_t length, uint8_t value)
{
    uint8_t request[12], answers[16];
    uint32_t body = kind < 33 ? body_lengths[kind] : 255, refused = length == 0 ? 2 : body == 255 ? 1 : length < 1 + body ? 2 : 0;
    desk_reason none = {0, 0, 0, 0, 0}, reason;
    desk_t desk = *before;
    size_t used, written;
    uint32_t stop;
    memset(request, value, sizeof request);
    memset(answers, 0xEE, sizeof answers);
    request[0] = (uint8_t)kind;
    stop = paged_batch(&desk, request, length, answers, sizeof answers, 3, &used, &written);
    check("body length", kind, desk_body_length(kind), body);
    if (refused != 0) {
        none.number = refused;
        check_reason("reason of no request", kind, before, request, length, none);
        check("stop", kind, stop, length == 0 ? 0 : refused);
        check("used", kind, used, 0);
        check("written", kind, written, length == 0 ? 0 : 1);
        check("answer", kind, answers[3], length == 0 ? 0xEE : DESK_REFUSED + refused);
        check("the desk stays", kind, memcmp(&desk, before, sizeof desk) == 0, 1);
        return;
    }
    paged_why(before, request, length, &reason);
    check("agrees with the reason", kind, reason.number == 0 ? answers[3] < 0x82 : answers[3] == DESK_REFUSED + reason.number, 1);
    if (value == 0xFF) { /* nobody is user or session 255, and what stands behind is an unknown kind */
        check("out of bounds", kind, answers[3], DESK_REFUSED + DESK_OUT_OF_BOUNDS);
        check("stop", kind, stop, length == 1 + body ? DESK_STOP_END : DESK_STOP_UNKNOWN);
        check("used", kind, used, 1 + body);
        check("the desk stays", kind, memcmp(&desk, before, sizeof desk) == 0, 1);
    }
}

static void frames(void)
{
    desk_t desk;
    uint32_t kind;
    size_t length;
    run_all(&desk);
    for (kind = 0; kind < 256; kind++)
        for (length = 0; length <= 11; length++) {
            check_frame(&desk, kind, length, 0);
            check_frame(&desk, kind, length, 1);
            check_frame(&desk, kind, length, 0xFF);
        }
    part("every kind with every number of bytes", 107032);
}

/* That a page beside is seen is tried by touching it. */
static int touch(const char *side)
{
    volatile uint8_t *first = pages_between(PAGE);
    calling = "a touch that has to be seen";
    return strcmp(side, "before") == 0 ? first[-1] : first[PAGE];
}

int main(int words, char **word)
{
    if (words == 2)
        return touch(word[1]);
    saves();
    loads();
    cut_images();
    copies();
    two_desks();
    reasons();
    frames();
    return verdict();
}
