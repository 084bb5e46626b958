/*
 * Calls the whole desk, through house.h, as caption software does, and compares every answer with what the documents say: the document's run in one batch
 * and in every split of it, and what the header promises of each call. Each batch, reason, image and opening goes through house_pages.h, between pages that
 * can't be touched, but for null pointers.
 *
 * C99, and C++17 as well. Says the first difference in full. The last line has the number of checks. Exit status: 0 no difference, else 1.
 */
#include "house_pages.h"

#include "house_checks.h"

static const size_t lengths[] = {0, 1, 5, 1000, SIZE_MAX / 2, SIZE_MAX - 4, SIZE_MAX};
static const uint8_t first_user[] = {0x01, 0x00, 0x00, 0x00, 0x05, 0x00, 0x03, 0x01};

/* One request, with room for one answer; the answer's byte is what it gives. */
static uint32_t ask(desk_t *desk, const uint8_t *request, size_t length)
{
    uint8_t answer[DESK_ANSWER_MAX] = {0, 0, 0, 0, 0};
    size_t used, written;
    uint32_t stop = paged_batch(desk, request, length, answer, sizeof answer, 0, &used, &written);
    check("a whole request's stop", request[0], stop, DESK_STOP_END);
    check("a whole request's bytes", request[0], used, length);
    check("a request's answer bytes", request[0], written, answer[0] == DESK_NUMBERED ? 5 : 1);
    return answer[0];
}

static uint32_t take_back(desk_t *desk, uint8_t u)
{
    uint8_t request[] = {DESK_TAKE_BACK, 0};
    request[1] = u;
    return ask(desk, request, sizeof request);
}

/* The desk has exactly this image. */
static void check_image(const char *what, uint64_t at, const desk_t *desk, const uint8_t *image, size_t length)
{
    uint8_t buffer[DESK_IMAGE_MAX];
    size_t written;
    memset(buffer, 0xEE, sizeof buffer);
    check(what, at, paged_save(desk, buffer, sizeof buffer, &written), DESK_OK);
    check(what, at, written, length);
    check_bytes(what, at, buffer, image, written < length ? written : length);
}

/* The desk has no records and no kept changes, and this number and rule. */
static void check_empty(const char *what, uint64_t at, const desk_t *desk, uint32_t last, uint32_t rule)
{
    uint8_t image[6] = {0x40, 0, 0, 0, 0, 0x46};
    int i;
    for (i = 0; i < 4; i++)
        image[1 + i] = (uint8_t)(last >> (24 - 8 * i) & 0xFFu);
    check(what, at, paged_number(desk_last, "desk_last", desk), last);
    check(what, at, paged_number(desk_rule, "desk_rule", desk), rule);
    check(what, at, paged_number(desk_kept, "desk_kept", desk), 0);
    check_image(what, at, desk, image, rule == 2 ? 6 : 5);
}

/* The desk as the run's first requests leave it; the number's answer bytes are checked too. */
static void run_to(desk_t *desk, size_t requests)
{
    uint8_t answers[40];
    size_t used, written;
    memset(answers, 0xEE, sizeof answers);
    check("the run's start", requests, paged_open(desk, 0, 1), DESK_OK);
    check("the run's start", requests, paged_batch(desk, run, run_end[requests], answers, sizeof answers, 0, &used, &written), DESK_STOP_END);
    check("the run's start", requests, used, run_end[requests]);
    check("the run's start", requests, written, run_answer_end[requests]);
    check_bytes("the run's start", requests, answers, run_answers, run_answer_end[requests]);
}

/* ---- The header's names stand for the documents' numbers, and its sizes are those of the form of an image and of the type */

static void names(void)
{
    static const struct {
        uint32_t name, number;
    } pairs[] = {
        {DESK_ENROL, 0x01}, {DESK_ESTABLISH, 0x02}, {DESK_JOIN_STAFF, 0x03}, {DESK_LEAVE_STAFF, 0x04}, {DESK_JOIN_OUTSIDER, 0x05},
        {DESK_LEAVE_OUTSIDER, 0x06}, {DESK_ADD, 0x07}, {DESK_REMOVE, 0x08}, {DESK_IMPORT, 0x09}, {DESK_MERGE, 0x0A}, {DESK_DISBAND, 0x0B},
        {DESK_MAKE_LEAD, 0x0C}, {DESK_END_LEAD, 0x0D}, {DESK_OPEN_RW_ROOM, 0x10}, {DESK_OPEN_RW_HOUSE, 0x11}, {DESK_OPEN_RO, 0x12},
        {DESK_READ, 0x13}, {DESK_UPDATE, 0x14}, {DESK_CREATE, 0x15}, {DESK_KILL, 0x16}, {DESK_TAKE_BACK, 0x20}, {DESK_REQUEST_MAX, 9},
        {DESK_STAFF, 0}, {DESK_FREELANCER, 1}, {DESK_OUTSIDER, 2},
        {DESK_GRANTED, 0x80}, {DESK_NUMBERED, 0x81}, {DESK_REFUSED, 0xC0}, {DESK_ANSWER_MAX, 5},
        {DESK_OK, 0}, {DESK_NO_SUCH_KIND, 1}, {DESK_CUT_BODY, 2}, {DESK_OUT_OF_BOUNDS, 3}, {DESK_NOT_THERE, 4}, {DESK_EXISTS, 5},
        {DESK_NOT_ENTITLED, 6}, {DESK_WRONG_SORT, 7}, {DESK_WRONG_PLACE, 8}, {DESK_WRONG_LEVEL, 9}, {DESK_WRONG_CATEGORIES, 16},
        {DESK_DRAFTS_FULL, 10}, {DESK_NUMBERS_SPENT, 11}, {DESK_NOTHING_KEPT, 12}, {DESK_TOO_SHORT, 14}, {DESK_NO_IMAGE, 15},
        {DESK_STOP_END, 0}, {DESK_STOP_UNKNOWN, 1}, {DESK_STOP_CUT, 2}, {DESK_STOP_NO_ROOM, 13},
        {DESK_NO_RECORD, 0x00}, {DESK_USER, 0x41}, {DESK_ROOM, 0x42}, {DESK_SCRIPT, 0x43}, {DESK_SESSION, 0x44}, {DESK_DRAFT, 0x45},
    };
    struct beside {
        uint8_t byte;
        desk_t desk;
    };
    size_t i;
    for (i = 0; i < COUNT_OF(pairs); i++)
        check("name of the header", i, pairs[i].name, pairs[i].number);
    /* counter and rule, users, rooms, scripts, sessions, drafts, each with its kind byte */
    check("longest image", 0, DESK_IMAGE_MAX, 5 + 1 + 64 * 15 + 16 * 2 + 64 * 6 + 64 * 8 + 256 * 10);
    check("size of a desk", 0, sizeof(desk_t), DESK_SIZE);
    check("alignment of a desk", 0, offsetof(struct beside, desk), 4);
    part("names and sizes of the header", 58);
}

/* ---- The document's run */

static void check_run_end(const char *what, uint64_t at, const desk_t *desk)
{
    check(what, at, desk_last(desk), 3);
    check(what, at, desk_rule(desk), 1);
    check(what, at, desk_kept(desk), run_kept[RUN]);
    check_image(what, at, desk, run_image, sizeof run_image);
}

static void one_batch(void)
{
    desk_t desk;
    size_t n;
    for (n = 0; n <= RUN; n++) {
        run_to(&desk, n);
        check("kept changes after requests", n, paged_number(desk_kept, "desk_kept", &desk), run_kept[n]);
    }
    check_run_end("the run in one batch", 0, &desk);
    part("the document's run", 6 * (RUN + 1) + 6);
}

/* Sends the run in pieces that end where `ends` says, of bytes; a piece may end inside a request, which is sent again whole with the next one. */
static void in_pieces(uint64_t name, const size_t *ends, size_t count)
{
    desk_t desk;
    uint8_t answers[64];
    size_t i, at = 0, place = 0, used, written;
    memset(answers, 0xEE, sizeof answers);
    desk_open(&desk, 0, 1);
    for (i = 0; i < count; i++) {
        uint32_t stop = paged_batch(&desk, run + at, ends[i] - at, answers, sizeof answers, place, &used, &written);
        at += used;
        check("stop of a piece", name, stop, at == ends[i] ? DESK_STOP_END : DESK_STOP_CUT);
        /* the C2 of a cut piece is written over by the next */
        place += stop == DESK_STOP_CUT ? written - 1 : written;
        if (stop == DESK_STOP_CUT)
            check("answer of a cut request", name, answers[place], 0xC2);
    }
    check("answers of all pieces", name, place, sizeof run_answers);
    check_bytes("answers of all pieces", name, answers, run_answers, sizeof run_answers);
    check("kept changes after all pieces", name, desk_kept(&desk), run_kept[RUN]);
    check("last number after all pieces", name, desk_last(&desk), 3);
}

/* Every way to part 15 requests into batches: a bit for each place between two. */
static void splits(void)
{
    uint32_t split;
    size_t ends[RUN], n, i;
    for (split = 0; split < 1u << (RUN - 1); split++) {
        for (n = 0, i = 1; i <= RUN; i++)
            if (i == RUN || split >> (i - 1) & 1)
                ends[n++] = run_end[i];
        in_pieces(split, ends, n);
    }
    part("every split of the document's run", 12 << (RUN - 1));
}

/* Three pieces that end at any two bytes. */
static void cuts(void)
{
    size_t ends[3], last = sizeof run;
    ends[2] = last;
    for (ends[0] = 0; ends[0] <= last; ends[0]++)
        for (ends[1] = ends[0]; ends[1] <= last; ends[1]++)
            in_pieces(ends[0] * 1000 + ends[1], ends, 3);
    part("every cut of the document's run", 38665);
}

/* Each room for answers and each place in it, call after call: before a request that has less than 5 bytes of room nothing is judged. */
static void rooms(void)
{
    desk_t desk;
    uint8_t answers[40], all[64];
    size_t size, place, at, got, calls, used, written, i;
    memset(answers, 0xEE, sizeof answers);
    for (size = 0; size <= 32; size++)
        for (place = 0; place <= size + 1; place++) {
            uint32_t stop = DESK_STOP_NO_ROOM;
            desk_open(&desk, 0, 1);
            /* each call answers one request at least */
            for (at = got = calls = 0; stop == DESK_STOP_NO_ROOM && calls < RUN; at += used, got += written, calls++) {
                stop = paged_batch(&desk, run + at, sizeof run - at, answers, size, place, &used, &written);
                if (size < place + DESK_ANSWER_MAX) {
                    check("stop without room", size * 100 + place, stop, DESK_STOP_NO_ROOM);
                    check("bytes without room", size * 100 + place, used + written, 0);
                    break;
                }
                for (i = 0; i < written && got + i < sizeof all; i++)
                    all[got + i] = answers[place + i];
                check("a stop for want of room", size * 100 + place, stop == DESK_STOP_NO_ROOM ? size - place - written < 5 : stop == 0, 1);
            }
            if (size < place + DESK_ANSWER_MAX)
                continue;
            check("answers through a small room", size * 100 + place, got, sizeof run_answers);
            check_bytes("answers through a small room", size * 100 + place, all, run_answers, sizeof run_answers);
        }
    part("every room for answers", 3000);
}

/* A place may be any number: those far beyond the buffer have no room either. */
static void places(void)
{
    desk_t desk, before;
    uint8_t answers[16];
    size_t used, written, i, size;
    run_to(&desk, 5);
    before = desk;
    memset(answers, 0xEE, sizeof answers);
    for (size = 0; size <= sizeof answers; size++)
        for (i = 0; i < 20; i++) {
            size_t place = i < 10 ? SIZE_MAX - i : SIZE_MAX / 2 + 5 - i;
            check("stop at a far place", i, paged_batch(&desk, run + 32, 3, answers, size, place, &used, &written), DESK_STOP_NO_ROOM);
            check("bytes at a far place", i, used + written, 0);
            check_bytes("the desk at a far place", i, &desk, &before, sizeof desk);
            check("no request at a far place", i, paged_batch(&desk, run, 0, answers, size, place, &used, &written), DESK_STOP_END);
        }
    part("places far beyond the buffer", 5 + 17 * 20 * 4);
}

/* ---- Null pointers are no bytes, whatever length stands beside them */

static void nulls_of(desk_t *desk, size_t length)
{
    uint8_t answers[16];
    size_t used = 9, written = 9;
    desk_t before = *desk;
    desk_reason reason = {9, 9, 9, 9, 9};
    memset(answers, 0xEE, sizeof answers);
    check("no requests", length, desk_batch(desk, NULL, length, answers, sizeof answers, 0, &used, &written), DESK_STOP_END);
    check("no requests", length, used + written, 0);
    check("no requests", length, answers[0], 0xEE);
    used = written = 9;
    check("no answers", length, desk_batch(desk, run, sizeof run, NULL, length, 0, &used, &written), DESK_STOP_NO_ROOM);
    check("no answers", length, used + written, 0);
    used = written = 9;
    check("neither", length, desk_batch(desk, NULL, length, NULL, length, 0, &used, &written), DESK_STOP_END);
    check("neither", length, used + written, 0);
    check("no request", length, desk_why(desk, NULL, length, &reason), DESK_CUT_BODY);
    check("no request", length, reason.number, DESK_CUT_BODY);
    check("no request", length, reason.kind | reason.id | reason.first | reason.second, 0);
    written = 9;
    check("no buffer", length, desk_save(desk, NULL, length, &written), DESK_TOO_SHORT);
    check("no buffer", length, written, 0);
    check_bytes("the desk without bytes", length, desk, &before, sizeof before);
    check("no image", length, desk_load(desk, NULL, length), DESK_TOO_SHORT);
    check_empty("no image", length, desk, 0, 1);
}

static void nulls(void)
{
    desk_t desk;
    size_t i;
    for (i = 0; i < COUNT_OF(lengths); i++) {
        run_to(&desk, RUN);
        nulls_of(&desk, lengths[i]);
    }
    part("null pointers", COUNT_OF(lengths) * 25);
}

/* ---- Openings */

/* A desk of zero bytes is empty, and answers as an opened one. */
static void zeros(void)
{
    desk_t desk;
    uint8_t answers[sizeof run_answers + 4];
    size_t used, written;
    memset(&desk, 0, sizeof desk);
    memset(answers, 0xEE, sizeof answers);
    check_empty("a desk of zeros", 0, &desk, 0, 1);
    check("a take-back by nobody", 0, take_back(&desk, 0), DESK_REFUSED + DESK_NOT_THERE);
    check("a desk of zeros", 0, paged_batch(&desk, run, sizeof run, answers, sizeof answers, 0, &used, &written), DESK_STOP_END);
    check("a desk of zeros", 0, written, sizeof run_answers);
    check_bytes("a desk of zeros", 0, answers, run_answers, sizeof run_answers);
    check_run_end("a desk of zeros", 0, &desk);
    part("a desk of zeros", 19);
}

/* Over a used desk: nothing of it is left, whatever the rule. */
static void openings(void)
{
    static const uint32_t lasts[] = {0, 1, 7, 0x01020304u, 0xFFFFFFFEu, 0xFFFFFFFFu}, rules[] = {0, 1, 2, 3, 255, 256 + 1, 0x80000001u, 0xFFFFFFFFu};
    desk_t desk;
    size_t i, j;
    for (i = 0; i < COUNT_OF(lasts); i++)
        for (j = 0; j < COUNT_OF(rules); j++) {
            int good = rules[j] == 1 || rules[j] == 2;
            uint32_t last = good ? lasts[i] : 0, rule = good ? rules[j] : 1;
            run_to(&desk, RUN);
            check("opened", i * 10 + j, paged_open(&desk, lasts[i], rules[j]), good ? DESK_OK : DESK_OUT_OF_BOUNDS);
            check_empty("opened", i * 10 + j, &desk, last, rule);
            check("a take-back by nobody", i * 10 + j, take_back(&desk, 0), DESK_REFUSED + DESK_NOT_THERE);
            check("the first user", i * 10 + j, ask(&desk, first_user, sizeof first_user), DESK_GRANTED);
            check("kept after the first user", i * 10 + j, desk_kept(&desk), 1);
            check("the first user taken back", i * 10 + j, take_back(&desk, 0), DESK_GRANTED);
            check_empty("all taken back", i * 10 + j, &desk, last, rule);
            check("a take-back by nobody", i * 10 + j, take_back(&desk, 0), DESK_REFUSED + DESK_NOT_THERE);
        }
    part("openings over a used desk", 48 * 35);
}

/* ---- Kept changes: 40 are made, 32 are kept, and the 33rd take-back is refused with 12 */

static void kept(void)
{
    desk_t desk;
    desk_reason reason;
    uint8_t enrol[] = {DESK_ENROL, 0, 0, 0, 0, 0, 0, 0};
    const uint8_t back[] = {DESK_TAKE_BACK, 0};
    uint8_t n;
    desk_open(&desk, 0, 1);
    check("the first user", 0, ask(&desk, first_user, sizeof first_user), DESK_GRANTED);
    for (n = 1; n < 40; n++) {
        enrol[2] = n;
        check("a user more", n, ask(&desk, enrol, sizeof enrol), DESK_GRANTED);
        check("kept changes", n, paged_number(desk_kept, "desk_kept", &desk), n + 1 < 32 ? n + 1u : 32u);
        check("the same user", n, ask(&desk, enrol, sizeof enrol), DESK_REFUSED + DESK_EXISTS);
        check("kept changes after a refusal", n, desk_kept(&desk), n + 1 < 32 ? n + 1u : 32u);
    }
    for (n = 1; n <= 32; n++) {
        check("reason of a take-back", n, paged_why(&desk, back, 2, &reason), DESK_OK);
        check("a take-back", n, take_back(&desk, 0), DESK_GRANTED);
        check("kept changes", n, desk_kept(&desk), 32u - n);
        enrol[2] = (uint8_t)(40 - n);
        enrol[1] = enrol[2];
        check("a user that is gone", n, paged_why(&desk, enrol, sizeof enrol, &reason), DESK_NOT_THERE);
        check("who is gone", n, reason.first, 40u - n);
    }
    check("the 33rd take-back", 33, take_back(&desk, 0), DESK_REFUSED + DESK_NOTHING_KEPT);
    check("reason of the 33rd", 33, paged_why(&desk, back, 2, &reason), DESK_NOTHING_KEPT);
    check("reason of the 33rd", 33, reason.number, DESK_NOTHING_KEPT);
    check("reason of the 33rd", 33, reason.kind | reason.id | reason.first | reason.second, 0);
    check("kept changes", 33, desk_kept(&desk), 0);
    part("kept changes", 658);
}

int main(void)
{
    names();
    one_batch();
    splits();
    cuts();
    rooms();
    places();
    nulls();
    zeros();
    openings();
    kept();
    return verdict();
}
