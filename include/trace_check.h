/*
 * The trace check: recording text in, one verdict line out, guards inferred; and the names that
 * both headers use. trace_library.h has the other functions. Link with -lgambozuri: the library
 * has every function of both headers.
 *
 * Constants are plain numbers or enumerators, and every macro evaluates each argument once.
 * Arguments of macros are unsigned, constants or enumerators.
 */
#ifndef TRACE_CHECK_H
#define TRACE_CHECK_H

#include <stddef.h>
#include <stdint.h>

#ifdef __cplusplus
extern "C" {
#endif

/* Limits. Threads, locks and variables are numbered from 0. */
#define TRACE_MAX_FRAMES 4096       /* frames of a recording */
#define TRACE_THREADS 32
#define TRACE_LOCKS 64
#define TRACE_VARIABLES 1024
#define TRACE_MAX_NESTING_DEPTH 15  /* open blocks of one thread, nested */
#define TRACE_MAX_HOLDS 15          /* holds of one lock by its owner */

/* Lengths in bytes, the LF counted. */
#define TRACE_LINE_LENGTH 33        /* a verdict line */
#define TRACE_TEXT_LINE_LENGTH 9    /* a line of a recording's text or of a guard list */

/* An absent begin or commit of a verdict line. */
#define TRACE_ABSENT 0xFFFF

/* The operations of frames. */
enum trace_operation {
    TRACE_OPERATION_ACQUIRE = 1, /* object: lock */
    TRACE_OPERATION_RELEASE = 2, /* object: lock */
    TRACE_OPERATION_READ = 3,    /* object: variable */
    TRACE_OPERATION_WRITE = 4,   /* object: variable */
    TRACE_OPERATION_BEGIN = 5,   /* object: 0 */
    TRACE_OPERATION_END = 6      /* object: 0 */
};

/*
 * A frame, a uint32_t: operation in the top 8 bits, thread in the next 8, object in the low 16.
 * TRACE_FRAME tests no range: an argument must fit its bits. The parts of a frame are uint32_t.
 */
#define TRACE_FRAME(operation, thread, object) \
    (0x1000000u * (operation) + 0x10000u * (thread) + (object))
#define TRACE_FRAME_OPERATION(frame) ((frame) >> 24 & 0xFFu)
#define TRACE_FRAME_THREAD(frame) ((frame) >> 16 & 0xFFu)
#define TRACE_FRAME_OBJECT(frame) ((frame) & 0xFFFFu)

/* The kinds of verdicts: reducible, or the violation. */
enum trace_kind {
    TRACE_KIND_REDUCIBLE = 0x00,
    TRACE_KIND_GUARD_NOT_HELD = 0x01,
    TRACE_KIND_UNPROTECTED_ACCESS_AFTER_COMMIT = 0x02,
    TRACE_KIND_ACQUIRE_AFTER_COMMIT = 0x03,
    TRACE_KIND_CANDIDATE_SET_EMPTIED = 0x04
};

/* The refusals. Each function says which of them it answers. */
enum trace_refusal {
    /* A line of a text or of a guard list is not eight digits 0-9 A-F and an LF. */
    TRACE_REFUSAL_MALFORMED_LINE = 1,
    /* A byte stands after the 4,096th line, or there are more than 4,096 words. */
    TRACE_REFUSAL_TOO_MANY_FRAMES = 2,
    /* The word buffer has fewer words than the text has lines. */
    TRACE_REFUSAL_WORDS_TOO_SHORT = 3,
    /* The operation is not 1 to 6. */
    TRACE_REFUSAL_OPERATION_OUT_OF_RANGE = 4,
    /* The thread is above 31. */
    TRACE_REFUSAL_THREAD_OUT_OF_RANGE = 5,
    /* The object is a lock above 63, a variable above 1023, or not 0 at begin or end. */
    TRACE_REFUSAL_OBJECT_OUT_OF_RANGE = 6,
    /* Acquire of a lock that another thread holds. */
    TRACE_REFUSAL_LOCK_HELD_BY_OTHER = 7,
    /* Release of a lock that this thread does not hold. */
    TRACE_REFUSAL_LOCK_NOT_HELD = 8,
    /* Begin inside 15 open blocks of this thread. */
    TRACE_REFUSAL_NESTING_TOO_DEEP = 9,
    /* End with no open block of this thread. */
    TRACE_REFUSAL_NO_OPEN_BLOCK = 10,
    /* Guard list: variable above 1023 or lock above 63. */
    TRACE_REFUSAL_GUARD_OUT_OF_RANGE = 11,
    /* Guard list: variable already named. */
    TRACE_REFUSAL_VARIABLE_ALREADY_NAMED = 12,
    /* Serial order and displacements: not reducible. */
    TRACE_REFUSAL_NOT_REDUCIBLE = 13,
    /* Serial order and displacements: a block still open at the end. */
    TRACE_REFUSAL_BLOCK_STILL_OPEN = 14,
    /* Serial order: the output is shorter than the recording. */
    TRACE_REFUSAL_OUTPUT_TOO_SHORT = 15,
    /* The table of candidate sets has fewer than 1,024 entries. */
    TRACE_REFUSAL_SETS_TOO_SHORT = 16,
    /* The line buffer is shorter than 33 bytes. */
    TRACE_REFUSAL_LINE_TOO_SHORT = 17,
    /* Not 32 digits 0-9 A-F and an LF, or a kind that is not 0x00 to 0x04 or 0x81 to 0xFF. */
    TRACE_REFUSAL_NOT_A_VERDICT_LINE = 18,
    /* The place lies beyond the text's end, or fewer than 9 bytes a frame stand from there. */
    TRACE_REFUSAL_TEXT_TOO_SHORT = 19,
    /* Acquire of a lock that this thread holds 15 times already. */
    TRACE_REFUSAL_TOO_MANY_HOLDS = 20,
    /* Displacements: fewer numbers than frames. */
    TRACE_REFUSAL_MOVES_TOO_SHORT = 21
};

/*
 * The kind of a refusal, 0x80 added to its number; whether a kind is a refusal; and the number of
 * such a kind. Of any other kind TRACE_KIND_REFUSAL says nothing.
 */
#define TRACE_KIND_OF_REFUSAL(number) ((0x80u + (number)) & 0xFFu)
#define TRACE_KIND_IS_REFUSAL(kind) ((kind) > 0x80)
#define TRACE_KIND_REFUSAL(kind) ((kind) & 0x7Fu)

/*
 * A uint64_t reply. It is a refusal, with a number and a place, or it is a count; the number of a
 * count is 0. TRACE_REPLY composes the reply of a refusal. trace_equal adds TRACE_RIGHT to the
 * number of a refusal of its right recording: TRACE_REPLY_IS_RIGHT says whether it has, and
 * TRACE_REPLY_REFUSAL leaves it out. The parts of a reply are uint64_t and fit a uint32_t.
 */
#define TRACE_RIGHT 256
#define TRACE_REPLY(number, place) (0x100000000u * (number) + (place))
#define TRACE_REPLY_IS_REFUSAL(reply) ((reply) > 0xFFFFFFFFu)
#define TRACE_REPLY_IS_RIGHT(reply) (((reply) >> 40 & 1u) != 0)
#define TRACE_REPLY_REFUSAL(reply) ((reply) >> 32 & 0xFFu)
#define TRACE_REPLY_PLACE(reply) ((reply) & 0xFFFFFFFFu)
#define TRACE_REPLY_COUNT(reply) ((reply) & 0xFFFFFFFFu)

/*
 * Each function states the stack that a call uses, below its caller's frame and besides what is
 * lent. The numbers of bytes are measured on x86-64, not proved; memcpy and memset of the C
 * library are counted. The dynamic linker is not: a call during which it looks one of these up
 * for the first time uses more, unless the code is linked with -z now.
 */

/*
 * text: one frame a line, eight digits 0-9 A-F and one LF, 0 to 4,096 lines.
 *
 * Returns the kind, which is also the first field of the line:
 *   0x00      reducible;
 *   0x03      acquire after commit;
 *   0x04      candidate set emptied;
 *   0x80 + n  refusal n of the recording: 1, 2, 4 to 10 or 20;
 *   0x91      refusal 17: line_len is below 33. Tested first of all.
 *
 * Writes exactly the first 33 bytes of line, 32 digits and LF: kind (2), frame (4), thread (2),
 * begin (4), commit (4), locks (16; lock n is bit n). Absent begin or commit is FFFF.
 * Reducible: frame is the number of frames. Refusal: frame is its place. In both, thread and
 * locks are zero, begin and commit FFFF. Later bytes of line keep their contents. Refusal 17
 * writes nothing. text is only read.
 *
 * Both pointers must be valid for their lengths, not null even if the length is 0, and the two
 * buffers must not overlap.
 * Stack: at most TRACE_STACK_CHECK bytes.
 */
#define TRACE_STACK_CHECK 27136
uint8_t trace_check(const uint8_t *text, size_t text_len, uint8_t *line, size_t line_len);

#ifdef __cplusplus
}
#endif

#endif
