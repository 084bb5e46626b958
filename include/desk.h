/*
 * desk.h - what the caption editor calls of the access-control desk.
 *
 * Three questions, each answered from its arguments alone:
 *
 *     desk_dominates     does one label dominate another?
 *     desk_join          which label is the join of two?
 *     desk_body_length   how long is the body of a request of this kind?
 *
 * Every 32-bit number is a valid argument, and each has exactly one answer. A
 * bad label or an unknown kind is no mistake of the caller's: it gets the
 * answer named below. The functions are proved, for all arguments, to answer
 * by these rules.
 *
 * Labels. A label is one 32-bit number:
 *
 *     bits 31..24   place        0 the house, 1 to 16 a room
 *     bits 23..16   level        0 to 7
 *     bits 15..0    categories   any set, one bit for each
 *
 * and two numbers stand for the ends, DESK_SYS_HIGH and DESK_SYS_LOW. Any other
 * number with a place over 16 or a level over 7 is a bad label.
 *
 * State and threads. The functions hold no state, write no memory but their own
 * stack, do no input or output, and leave errno alone. Any number of threads may call
 * them at the same time, and so may a signal handler.
 *
 * Linking. `sh tools/library.sh editor` writes target/staticlib/libeditor.a for
 * x86-64 Linux. Nothing else is to be linked:
 *
 *     cc -Iinclude captions.c target/staticlib/libeditor.a
 *
 * The library is code alone: it has no data, neither read-only nor written to.
 *
 * libhouse.a, the whole desk (house.h), has the same three functions: a program
 * links one of the two.
 */
#ifndef DESK_H
#define DESK_H

#include <stdint.h>

#ifdef __cplusplus
extern "C" {
#endif

/* The label that dominates every label, and the one that every label dominates. */
#define DESK_SYS_HIGH 0xFF000000u
#define DESK_SYS_LOW 0xFE000000u

/* The answers of desk_dominates. */
#define DESK_NO 0u
#define DESK_YES 1u
#define DESK_BAD_LABEL 3u

/* The answer of desk_join for a bad label. It is itself a bad label. */
#define DESK_BAD_JOIN 0xC3000000u

/* The answer of desk_body_length for an unknown kind. No body is that long. */
#define DESK_UNKNOWN_KIND 255u

/*
 * Does the label a dominate the label b? It does when a is DESK_SYS_HIGH, or b
 * is DESK_SYS_LOW, or both have the same place, a's level is at least b's and
 * a's categories contain b's.
 *
 * Answers DESK_YES or DESK_NO, and DESK_BAD_LABEL when a or b is a bad label,
 * even beside DESK_SYS_HIGH or DESK_SYS_LOW. To permit something, compare with
 * DESK_YES: DESK_BAD_LABEL is not zero, so `if (desk_dominates(a, b))` alone
 * would let a bad label through.
 */
uint32_t desk_dominates(uint32_t a, uint32_t b);

/*
 * The join of the labels a and b: the least label that dominates both. Of one
 * place, it has the larger level and the union of the categories; of different
 * places, it is DESK_SYS_HIGH. DESK_SYS_HIGH with any label is DESK_SYS_HIGH,
 * and DESK_SYS_LOW with any label is that label.
 *
 * Answers the join as a number, never a bad label, and DESK_BAD_JOIN when a or
 * b is a bad label, even beside DESK_SYS_HIGH or DESK_SYS_LOW.
 */
uint32_t desk_join(uint32_t a, uint32_t b);

/*
 * The number of bytes that follow the kind byte of a request.
 *
 * Answers 1 to 8 for the kinds 01 to 0D, 10 to 16 and 20 (hex), and
 * DESK_UNKNOWN_KIND for every other number, those over 255 too: a kind is never
 * cut to a byte.
 */
uint32_t desk_body_length(uint32_t kind);

#ifdef __cplusplus
}
#endif

#endif
