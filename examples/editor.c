/*
 * editor.c - an evening at the house, seen from a caption editor.
 *
 *     cc editor.c $(pkg-config --cflags --libs desk-house) -o editor
 *     ./editor [IMAGE]
 *
 * Opens the desk that the file IMAGE holds, or an empty one where there is no such file yet, sends it requests,
 * says each answer in words, and saves the desk. Exit status: 0; 1 where the image could not be opened or saved.
 */
#include <errno.h>
#include <stdio.h>
#include <string.h>

#include <house.h>

enum { MARA = 0, ANA = 1 };                  /* users: the administrator, who leads both rooms, and a translator */
enum { IN_HOUSE = 0, IN_ROOM = 1 };          /* sessions: Mara's and Ana's */
enum { DRAMA = 0 };                          /* a script */
enum { FICTION = 1, FOOD = 2 };              /* categories, one bit each */

/* ---- Requests from their fields, which have the names and the order of house.h */

typedef struct { uint8_t bytes[DESK_REQUEST_MAX]; } request; /* the kind of each says how many count */

#define TWO(c) (uint8_t)((c) >> 8), (uint8_t)(c)
#define FOUR(v) (uint8_t)((v) >> 24), (uint8_t)((v) >> 16), TWO(v)
#define BYTES(...) { request asked = {{__VA_ARGS__}}; return asked; } /* the body of a function that makes a request */

static request enrol(uint8_t u, uint8_t new_user, uint8_t sort, uint8_t level, uint16_t c, uint8_t admin)
    BYTES(DESK_ENROL, u, new_user, sort, level, TWO(c), admin)
static request establish(uint8_t u, uint8_t room) BYTES(DESK_ESTABLISH, u, room)
static request join_outsider(uint8_t u, uint8_t w, uint8_t room, uint8_t level, uint16_t c) BYTES(DESK_JOIN_OUTSIDER, u, w, room, level, TWO(c))
static request add(uint8_t u, uint8_t script, uint32_t v, uint8_t room) BYTES(DESK_ADD, u, script, FOUR(v), room)
static request disband(uint8_t u, uint8_t room) BYTES(DESK_DISBAND, u, room)
static request open_rw_room(uint8_t u, uint8_t s, uint8_t room, uint8_t level, uint16_t c) BYTES(DESK_OPEN_RW_ROOM, u, s, room, level, TWO(c))
static request open_rw_house(uint8_t u, uint8_t s, uint8_t level, uint16_t c) BYTES(DESK_OPEN_RW_HOUSE, u, s, level, TWO(c))
static request open_ro(uint8_t u, uint8_t s, uint8_t level, uint16_t c) BYTES(DESK_OPEN_RO, u, s, level, TWO(c))
static request read_draft(uint8_t s, uint8_t script, uint32_t v) BYTES(DESK_READ, s, script, FOUR(v))
static request update(uint8_t s, uint8_t script, uint32_t v) BYTES(DESK_UPDATE, s, script, FOUR(v))
static request create(uint8_t s, uint8_t script) BYTES(DESK_CREATE, s, script)
static request take_back(uint8_t u) BYTES(DESK_TAKE_BACK, u)

static size_t length_of(request asked) { return 1 + desk_body_length(asked.bytes[0]); }

/* ---- Answers in words */

typedef struct { char text[256]; } words;

/* A set of places as their names. */
static words named(uint32_t places)
{
    words w;
    int length = snprintf(w.text, sizeof w.text, "%s", places == 0 ? "nowhere" : (places & 1u) ? "the house" : "");
    for (uint32_t room = 1; room <= 16; room++)
        if ((places >> room) & 1u)
            length += snprintf(w.text + length, sizeof w.text - (size_t)length, "%sroom %u", length ? " and " : "", room);
    return w;
}

/* The sentences of docs/REASONS.md for what is refused this evening, and the numbers for anything else. */
static void say_reason(uint32_t kind, const desk_reason *why)
{
    const words first = named(why->first), second = named(why->second);

    printf("refused. ");
    if (why->number == DESK_NOT_THERE)
        printf("What was asked for as number %u is not there.\n", why->first);
    else if (why->number == DESK_NOT_ENTITLED && kind == DESK_TAKE_BACK)
        printf("You (user %u) are no house administrator.\n", why->id);
    else if (why->number == DESK_WRONG_PLACE && kind == DESK_READ)
        printf("Draft %u is in %s. You can read what is in %s.\n", why->id, first.text, second.text);
    else if (why->number == DESK_WRONG_PLACE && kind == DESK_ADD && why->second == 1)
        printf("Draft %u is in %s only; it has to be in the house to be shown in another room.\n", why->id, first.text);
    else if (why->number == DESK_WRONG_LEVEL && why->kind == DESK_USER)
        printf("You have level %u, and asked for %u.\n", why->first, why->second);
    else if (why->number == DESK_WRONG_CATEGORIES && why->kind == DESK_USER)
        printf("You have the categories %04X, and asked for %04X.\n", why->first, why->second);
    else
        printf("Number %u: record %02X %u has %u, and wanted was %u.\n", why->number, why->kind, why->id, why->first, why->second);
}

static uint32_t number_at(const uint8_t *b) { return (uint32_t)b[0] << 24 | (uint32_t)b[1] << 16 | (uint32_t)b[2] << 8 | b[3]; }

/* Sends one request and says its answer: the draft number that it was granted with, or else 0, which no draft has. */
static uint32_t ask(desk_t *desk, const char *what, request asked)
{
    uint8_t answer[DESK_ANSWER_MAX];
    size_t used, written;
    desk_reason why;

    desk_batch(desk, asked.bytes, length_of(asked), answer, sizeof answer, 0, &used, &written);
    printf("%s: ", what);
    if (answer[0] == DESK_GRANTED) {
        printf("granted.\n");
    } else if (answer[0] == DESK_NUMBERED) {
        printf("granted, with draft %u.\n", number_at(answer + 1));
        return number_at(answer + 1);
    } else {
        desk_why(desk, asked.bytes, length_of(asked), &why); /* at once: a later request may change the reason */
        say_reason(asked.bytes[0], &why);
    }
    return 0;
}

/* ---- The house, and an evening */

/* A new house in one batch: its requests stand one behind the other, and so do the answers. */
static void set_up(desk_t *desk)
{
    const request asked[] = {
        enrol(MARA, MARA, DESK_STAFF, 5, FICTION | FOOD, 1), enrol(MARA, ANA, DESK_OUTSIDER, 0, 0, 0), establish(MARA, 1), establish(MARA, 2),
        join_outsider(MARA, ANA, 1, 2, FICTION), open_rw_room(ANA, IN_ROOM, 1, 2, FICTION),
        open_rw_house(MARA, IN_HOUSE, 2, FICTION), create(IN_HOUSE, DRAMA)};
    enum { COUNT = sizeof asked / sizeof asked[0] };
    uint8_t requests[sizeof asked], answers[COUNT * DESK_ANSWER_MAX];
    size_t length = 0, used, written, at = 0, granted = 0;

    for (int i = 0; i < COUNT; i++) {
        memcpy(requests + length, asked[i].bytes, length_of(asked[i]));
        length += length_of(asked[i]);
    }
    desk_batch(desk, requests, length, answers, sizeof answers, 0, &used, &written);
    for (; at < written; at += answers[at] == DESK_NUMBERED ? 5 : 1)
        granted += answers[at] == DESK_GRANTED || answers[at] == DESK_NUMBERED;
    printf("A new house, by %d requests in one batch: %zu granted.\n", COUNT, granted);
}

static void evening(desk_t *desk)
{
    uint32_t v = desk_last(desk); /* the drama's newest draft, of just now or of the evening before */

    ask(desk, "Ana reads the drama", read_draft(IN_ROOM, DRAMA, v));
    ask(desk, "Mara shows it in room 1", add(MARA, DRAMA, v, 1));
    ask(desk, "Ana reads it now", read_draft(IN_ROOM, DRAMA, v));
    ask(desk, "Ana would read at level 3", open_ro(ANA, 2, 3, FICTION));
    ask(desk, "Ana would read about food", open_ro(ANA, 2, 2, FOOD));
    v = ask(desk, "Ana translates it", update(IN_ROOM, DRAMA, v));
    ask(desk, "Mara closes room 1, the wrong one", disband(MARA, 1));
    ask(desk, "Ana goes on", update(IN_ROOM, DRAMA, v));
    ask(desk, "Ana takes the closing back", take_back(ANA));
    ask(desk, "Mara takes it back", take_back(MARA));
    ask(desk, "Ana goes on", update(IN_ROOM, DRAMA, v));
    ask(desk, "Mara closes room 2, the right one", disband(MARA, 2));
}

/* ---- The image in its file */

static int wrong(const char *path, const char *what) { fprintf(stderr, "editor: %s %s\n", path, what); return 0; }

/* Loads the desk, or sets up a new house where there is no file. 0 where it can do neither; the file stays as it is. */
static int load(desk_t *desk, const char *path)
{
    uint8_t image[DESK_IMAGE_MAX + 1]; /* a byte more than any image has, so that a longer file is refused too */
    FILE *file = path ? fopen(path, "rb") : NULL;

    if (file == NULL && path != NULL && errno != ENOENT)
        return wrong(path, "can't be opened");
    if (file == NULL) {
        desk_open(desk, 0, 1);
        set_up(desk);
        return 1;
    }
    size_t length = fread(image, 1, sizeof image, file);
    int failed = ferror(file);
    fclose(file);
    if (failed || desk_load(desk, image, length) != DESK_OK)
        return wrong(path, failed ? "can't be read" : "is no image of a desk");
    printf("The house as it was left, with draft %u the last.\n", desk_last(desk));
    return 1;
}

/* Writes the image beside its place and renames it: whoever looks finds the old one or the new one, whole. */
static int save(const desk_t *desk, const char *path)
{
    uint8_t image[DESK_IMAGE_MAX];
    char beside[4096];
    size_t length;

    desk_save(desk, image, sizeof image, &length); /* any image has room in it */
    int fits = (size_t)snprintf(beside, sizeof beside, "%s.new", path) < sizeof beside;
    FILE *file = fits ? fopen(beside, "wb") : NULL;
    if (file == NULL)
        return wrong(path, "is not saved: nothing can be written beside it");
    int whole = fwrite(image, 1, length, file) == length;
    whole = fclose(file) == 0 && whole;
    if (whole && rename(beside, path) == 0)
        return 1;
    remove(beside);
    return wrong(path, "is not saved");
}

int main(int count, char **word)
{
    const char *path = count > 1 ? word[1] : NULL;
    desk_t desk;

    if (!load(&desk, path))
        return 1;
    evening(&desk);
    printf("%u changes can be taken back, the last draft is %u, the rule is %u.\n", desk_kept(&desk), desk_last(&desk), desk_rule(&desk));
    return path == NULL || save(&desk, path) ? 0 : 1;
}
