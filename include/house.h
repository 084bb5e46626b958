/*
 * house.h - the whole access-control desk, for caption software in C and C++.
 *
 * A desk judges requests against the records of one house: who is there, who
 * leads and joins which room, which scripts and drafts are where, and which
 * sessions are open. Each request is answered granted, granted with a draft
 * number, or refused with one number, and desk_why says what decided.
 *
 *     desk_open     a desk without records
 *     desk_batch    requests in, answers out
 *     desk_why      the reason of an answer, on the present desk
 *     desk_save     the desk as bytes, its image
 *     desk_load     a desk from its image
 *     desk_kept     how many changes can be taken back
 *     desk_last     the last draft number given
 *     desk_rule     the rule that Import is judged by
 *
 * and the three of desk.h, which ask about labels and kinds alone.
 *
 *     desk_t desk;
 *     size_t used, written;
 *     uint8_t answers[64];
 *     const uint8_t enrol[] = {DESK_ENROL, 0, 0, 0, 5, 0, 3, 1};
 *
 *     desk_open(&desk, 0, 1);   no draft number was given before; rule 1 of Import
 *     desk_batch(&desk, enrol, sizeof enrol, answers, sizeof answers, 0, &used, &written);
 *     if (answers[0] == DESK_GRANTED) ..
 *
 * The desk is yours. All of its state is one desk_t, DESK_SIZE bytes, which you
 * may keep anywhere that a uint32_t may stand. Copied by = or memcpy, it is a
 * second desk that goes its own way. The library allocates nothing, has no
 * state of its own, does no input or output and leaves errno alone.
 *
 * What is proved, for all arguments and for every content of a desk_t: each
 * function of the library ends, stays within what it was lent, and answers as it
 * says below; the inline functions here only take a desk_t apart for them. So
 * no request is a mistake of the caller's, nor is any image: each has one
 * answer. A desk_t that was damaged may answer wrongly, and does nothing worse.
 * All zero bytes are an empty desk with last number 0 and under rule 1.
 *
 * What you owe, since no function can check it:
 *   - desk, used, written and reason are not null, and point to what their types say;
 *   - bytes have the length that you say, and answers and buffer are yours to write to;
 *   - what a call writes to overlaps with nothing else that the same call is given.
 * A null pointer for bytes (requests, answers, request, buffer, image) counts as
 * no bytes at all, whatever length stands beside it.
 *
 * Threads. One desk is for one thread at a time, unless all of them call functions
 * that take a const desk_t *. Different desks never mix.
 *
 * Linking. libhouse.a is for x86-64 Linux, and holds the functions of desk.h as
 * well, so libeditor.a is not linked beside it. Of the C library it calls
 * memcpy, memmove and memset. tools/install.sh installs it, and then
 *
 *     cc editor.c $(pkg-config --cflags --libs desk-house)
 */
#ifndef DESK_HOUSE_H
#define DESK_HOUSE_H

#include <stddef.h>
#include <stdint.h>

#include "desk.h"

#ifdef __cplusplus
extern "C" {
#endif

/*
 * A request is one byte of kind, then its body. u is the user who acts, w another
 * user, s a session. Users, scripts and sessions are 0 to 63, rooms 1 to 16, levels
 * 0 to 7, admin 0 no or 1 yes. Each field has one byte, but for a draft number v,
 * which has four, and categories c, any set of 16 bits, which have two, the most
 * significant first. desk_body_length says how long a body is.
 */
#define DESK_REQUEST_MAX 9u         /* bytes of the longest request */
#define DESK_ENROL 0x01u            /* u, new user, sort, level, c, admin */
#define DESK_ESTABLISH 0x02u        /* u, room */
#define DESK_JOIN_STAFF 0x03u       /* u, w, room */
#define DESK_LEAVE_STAFF 0x04u      /* u, w, room */
#define DESK_JOIN_OUTSIDER 0x05u    /* u, w, room, level, c */
#define DESK_LEAVE_OUTSIDER 0x06u   /* u, w, room */
#define DESK_ADD 0x07u              /* u, script, v, room */
#define DESK_REMOVE 0x08u           /* u, script, v, room */
#define DESK_IMPORT 0x09u           /* u, script1, v, script2, room: numbered */
#define DESK_MERGE 0x0Au            /* u, script, v, room */
#define DESK_DISBAND 0x0Bu          /* u, room */
#define DESK_MAKE_LEAD 0x0Cu        /* u, w, room */
#define DESK_END_LEAD 0x0Du         /* u, w, room */
#define DESK_OPEN_RW_ROOM 0x10u     /* u, s, room, level, c */
#define DESK_OPEN_RW_HOUSE 0x11u    /* u, s, level, c */
#define DESK_OPEN_RO 0x12u          /* u, s, level, c */
#define DESK_READ 0x13u             /* s, script, v */
#define DESK_UPDATE 0x14u           /* s, script, v: numbered */
#define DESK_CREATE 0x15u           /* s, script: numbered */
#define DESK_KILL 0x16u             /* u, s */
#define DESK_TAKE_BACK 0x20u        /* u */

/* The sorts of user. Enrol takes staff and outsiders; an outsider who joins a room is a freelancer. */
#define DESK_STAFF 0u
#define DESK_FREELANCER 1u
#define DESK_OUTSIDER 2u

/*
 * An answer is one byte, and behind DESK_NUMBERED the four of the draft number,
 * the most significant first. Any other answer is DESK_REFUSED plus a refusal.
 */
#define DESK_GRANTED 0x80u
#define DESK_NUMBERED 0x81u
#define DESK_REFUSED 0xC0u
#define DESK_ANSWER_MAX 5u          /* bytes of the longest answer */

/* The refusals, in the order in which they are asked: the first that applies is given. */
#define DESK_OK 0u                  /* none: granted, opened, saved, loaded */
#define DESK_NO_SUCH_KIND 1u        /* the kind is unknown */
#define DESK_CUT_BODY 2u            /* fewer bytes are left than the body has */
#define DESK_OUT_OF_BOUNDS 3u       /* a number is out of its bounds */
#define DESK_NOT_THERE 4u           /* a user, room, script, session or draft that must exist does not */
#define DESK_EXISTS 5u              /* the new user, room, session or script exists */
#define DESK_NOT_ENTITLED 6u        /* no administrator, not the room's lead, or may not end the session */
#define DESK_WRONG_SORT 7u          /* the person is of the wrong sort, or the session read-only */
#define DESK_WRONG_PLACE 8u         /* already in or not in, not at the place, already leads, leads not, the only lead */
#define DESK_WRONG_LEVEL 9u         /* the level is not covered, or differs */
#define DESK_WRONG_CATEGORIES 16u   /* the categories are not covered, or differ */
#define DESK_DRAFTS_FULL 10u        /* 256 drafts are live */
#define DESK_NUMBERS_SPENT 11u      /* no draft number is left */
#define DESK_NOTHING_KEPT 12u       /* no change is left to take back */
#define DESK_TOO_SHORT 14u          /* an image: no bytes, or an end inside a record; or the buffer too small for it */
#define DESK_NO_IMAGE 15u           /* bytes that are no image of a desk */

/* The stops of a batch. */
#define DESK_STOP_END 0u            /* no request bytes are left */
#define DESK_STOP_UNKNOWN 1u        /* an unknown kind, answered */
#define DESK_STOP_CUT 2u            /* a cut body, answered */
#define DESK_STOP_NO_ROOM 13u       /* less than DESK_ANSWER_MAX bytes of room for the next answer */

/* The kinds of record that a reason names. */
#define DESK_NO_RECORD 0x00u
#define DESK_USER 0x41u
#define DESK_ROOM 0x42u
#define DESK_SCRIPT 0x43u
#define DESK_SESSION 0x44u
#define DESK_DRAFT 0x45u

#define DESK_IMAGE_MAX 4454u        /* a buffer of so many bytes has room for any image */
#define DESK_SIZE 15292u            /* of a desk_t, in bytes */

/* All of a desk. Its members are for the functions alone. */
typedef struct {
    uint32_t base[1858];            /* the records before the kept changes */
    uint32_t current[1858];         /* the records after them */
    uint32_t last;
    uint32_t rule;
    uint8_t log[418];               /* the kept changes */
} desk_t;

/*
 * Why a request is answered as it is; the project's docs/REASONS.md has a sentence
 * for each. A set of places or rooms is one number, with place p as bit p and the
 * house as bit 0; categories are bits too; no is 0 and yes 1.
 */
typedef struct {
    uint32_t number;                /* the refusal, or DESK_OK */
    uint32_t kind, id;              /* the record that decided, or DESK_NO_RECORD and 0 */
    uint32_t first, second;         /* what it holds, and what was wanted; without a record, the value and its bound */
} desk_reason;

/* A compiler for which a desk_t has another size stops here. */
typedef char desk_size_is_as_said[sizeof(desk_t) == DESK_SIZE ? 1 : -1];

/* The functions of the library, over the parts of a desk. Those below call them. */
uint32_t desk_open_parts(uint32_t *base, uint8_t *log, uint32_t *current, uint32_t *last, uint32_t *rule, uint32_t start, uint32_t under);
uint32_t desk_batch_parts(uint32_t *base, uint8_t *log, uint32_t *current, uint32_t *last, uint32_t rule, const uint8_t *requests, size_t length,
                          uint8_t *answers, size_t size, size_t place, size_t *used, size_t *written);
uint32_t desk_why_parts(const uint8_t *log, const uint32_t *current, uint32_t last, uint32_t rule, const uint8_t *request, size_t length,
                        uint32_t *words);
uint32_t desk_save_parts(const uint32_t *current, uint32_t last, uint32_t rule, uint8_t *buffer, size_t size, size_t *written);
uint32_t desk_load_parts(uint32_t *base, uint8_t *log, uint32_t *current, uint32_t *last, uint32_t *rule, const uint8_t *image, size_t length);
uint32_t desk_kept_parts(const uint8_t *log);
uint32_t desk_rule_parts(uint32_t rule);

/*
 * Opens a desk without records, with the last draft number already used (0 for
 * a new house) and under rule 1 or 2; whatever the desk_t held is gone.
 *
 * Answers DESK_OK, or DESK_OUT_OF_BOUNDS for another rule: then the desk is
 * empty too, with last number 0 and under rule 1.
 */
static inline uint32_t desk_open(desk_t *desk, uint32_t last, uint32_t rule)
{
    return desk_open_parts(desk->base, desk->log, desk->current, &desk->last, &desk->rule, last, rule);
}

/*
 * Answers requests, one behind the other, and writes their answers into `answers`,
 * which has `size` bytes, from its byte `place` onward. *used is the number of
 * request bytes that were taken, *written of answer bytes that were written. All
 * other answer bytes stay as they are. A refused request changes nothing in the desk.
 *
 * Answers the stop. DESK_STOP_END: all are answered. DESK_STOP_NO_ROOM: fewer than
 * DESK_ANSWER_MAX bytes were left from the present place on (none, where place is
 * beyond size), whatever stands at *used; call again from there, with room for at least
 * one answer. DESK_STOP_UNKNOWN or DESK_STOP_CUT: what stands at *used is no request,
 * its refusal is the last answer, and its bytes count as unused.
 *
 * With room for DESK_ANSWER_MAX bytes and no more, a batch stops behind each answer.
 */
static inline uint32_t desk_batch(desk_t *desk, const uint8_t *requests, size_t length, uint8_t *answers, size_t size, size_t place,
                                  size_t *used, size_t *written)
{
    uint8_t none = 0;
    return desk_batch_parts(desk->base, desk->log, desk->current, &desk->last, desk->rule, requests ? requests : &none, requests ? length : 0,
                            answers ? answers : &none, answers ? size : 0, place, used, written);
}

/*
 * The reason of the answer that the present desk would give to the request at the
 * start of these bytes; the desk stays as it is. Ask before the request is sent, or
 * once it was refused, which changed nothing, and before any other request.
 *
 * Answers the refusal, or DESK_OK, which is reason->number too. For DESK_OK, an
 * unknown kind and a cut request (no bytes too), the other four are 0.
 */
static inline uint32_t desk_why(const desk_t *desk, const uint8_t *request, size_t length, desk_reason *reason)
{
    uint8_t none = 0;
    uint32_t words[5];
    uint32_t number = desk_why_parts(desk->log, desk->current, desk->last, desk->rule, request ? request : &none, request ? length : 0, words);
    reason->number = words[0];
    reason->kind = words[1];
    reason->id = words[2];
    reason->first = words[3];
    reason->second = words[4];
    return number;
}

/*
 * Writes the image of the desk to the start of the buffer: records, last number and
 * rule, and no kept changes. Bytes behind it stay. *written is its length.
 *
 * Answers DESK_OK, or DESK_TOO_SHORT where it has no room: then the buffer stays as
 * it was, and *written is 0.
 */
static inline uint32_t desk_save(const desk_t *desk, uint8_t *buffer, size_t size, size_t *written)
{
    uint8_t none = 0;
    return desk_save_parts(desk->current, desk->last, desk->rule, buffer ? buffer : &none, buffer ? size : 0, written);
}

/*
 * Opens the desk whose image these bytes are, all of them; no change is kept, and
 * whatever the desk_t held is gone.
 *
 * Answers DESK_OK; DESK_TOO_SHORT for no bytes or an end inside a record,
 * DESK_NO_IMAGE for other bytes that are no image: then the desk is empty, with last
 * number 0 and under rule 1. An image whose end is lost right behind a record may be
 * the image of a smaller desk: write a file beside the old one, rename it once it is
 * whole, and look whether reading failed.
 */
static inline uint32_t desk_load(desk_t *desk, const uint8_t *image, size_t length)
{
    uint8_t none = 0;
    return desk_load_parts(desk->base, desk->log, desk->current, &desk->last, &desk->rule, image ? image : &none, image ? length : 0);
}

/*
 * How many changes can be taken back, 0 to 32: those of the granted requests since the
 * desk was opened or loaded, but for Read and Take back, that were not taken back yet.
 * Of more than 32 the oldest is kept no longer.
 */
static inline uint32_t desk_kept(const desk_t *desk)
{
    return desk_kept_parts(desk->log);
}

/* The last draft number given, or the one that the desk was opened with. */
static inline uint32_t desk_last(const desk_t *desk)
{
    return desk->last;
}

/* The rule that the desk is under, 1 or 2; of a damaged desk_t, 2 only where it holds 2. */
static inline uint32_t desk_rule(const desk_t *desk)
{
    return desk_rule_parts(desk->rule);
}

#ifdef __cplusplus
}
#endif

#endif
