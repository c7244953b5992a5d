/*
 * The parts of the trace check: text read and written, guard lists, verdicts, equality, serial
 * orders, displacements and commits on words, verdict lines read and written, answers in words.
 *
 * Every pointer must be valid for its length (counted in elements), aligned for its element type
 * and not null even if the length is 0. A buffer that is written must not overlap another.
 * const arguments are only read.
 *
 * A uint64_t reply holds the refusal's number in the high 32 bits, 0 if there is none. The low
 * 32 bits hold the refusal's place, or without one the count answered. trace_equal adds to this.
 * trace_check.h has names for limits, operations, kinds and refusals, and macros that take a reply
 * apart; it also says what the figures of stacks count. Link with -lgambozuri.
 */
#ifndef TRACE_LIBRARY_H
#define TRACE_LIBRARY_H

#include "trace_check.h"

#ifdef __cplusplus
extern "C" {
#endif

/*
 * Reads a recording's text: a frame on each line. Frames are not looked at.
 * Count: the lines; that many words are written, later words keep their contents.
 * Refusals: 1 a line is not eight digits 0-9 A-F and an LF (place: line); 2 a byte stands after
 * the 4,096th line (place 4096); after all lines, 3 words_len is below the number of lines
 * (place: lines). A refusal writes nothing.
 * Stack: at most TRACE_STACK_READ bytes.
 */
#define TRACE_STACK_READ 512
uint64_t trace_read(const uint8_t *text, size_t text_len, uint32_t *words, size_t words_len);

/*
 * Checks a guard list: on each line variable (4 digits) and lock (4 digits), then LF.
 * Count: the lines. Refusals, line by line, place the line: 1 as for text; 11 variable above
 * 1023 or lock above 63; 12 variable already named.
 * Stack: at most TRACE_STACK_GUARDS bytes.
 */
#define TRACE_STACK_GUARDS 1536
uint64_t trace_guards(const uint8_t *list, size_t list_len);

/*
 * The verdict with declared guards; a variable that the list does not name is unprotected.
 * Returns the kind and writes exactly the first 33 bytes of line, the verdict line as described
 * in trace_check.h. Kinds: 0x00 reducible; 0x01 guard not held; 0x02 unprotected access after
 * commit; 0x03 acquire after commit; 0x80 + n refusal n.
 * Refusals in order: 17 line_len is below 33 (returns 0x91, writes nothing); 1, 11, 12 of the
 * list; 2 words_len is above 4,096; 4 to 10 or 20 of the first frame that fails.
 * The line is the reply: it is written for a verdict, for a refusal of the recording, and for one
 * of the list as well (kind 0x81, 0x8B, 0x8C, frame = line of the list). Only 17 leaves it.
 * Stack: at most TRACE_STACK_DECLARED bytes.
 */
#define TRACE_STACK_DECLARED 10752
uint8_t trace_declared(const uint8_t *list, size_t list_len, const uint32_t *words,
                       size_t words_len, uint8_t *line, size_t line_len);

/*
 * The verdict with inferred guards. Returns the kind and writes exactly the first 33 bytes of
 * line. Kinds: 0x00 reducible; 0x03 acquire after commit; 0x04 candidate set emptied;
 * 0x80 + n refusal n.
 * Refusals in order: 17 line_len is below 33 (returns 0x91, writes nothing); 2 words_len is
 * above 4,096; 4 to 10 or 20 of the first frame that fails; 16 sets_len is below 1,024 (place
 * 1024).
 * The line is the reply: it is written for a verdict, for a refusal of the recording, and for 16
 * as well. Only 17 leaves it.
 * With a verdict, sets[v] for v from 0 to 1023 becomes variable v's candidate set, bit n for
 * lock n: after the last frame if reducible, else as before the violating frame. Later entries
 * keep their contents. A refusal leaves sets as it was.
 * Stack: at most TRACE_STACK_INFERRED bytes.
 */
#define TRACE_STACK_INFERRED 10752
uint8_t trace_inferred(const uint32_t *words, size_t words_len, uint64_t *sets, size_t sets_len,
                       uint8_t *line, size_t line_len);

/*
 * Whether exchanges of independent neighbours turn the left recording into the right one.
 * Without a refusal the reply is 1 if they do and 0 if not; recordings of different length are
 * not equal. Frames of different threads are independent if they do not name the same lock or the
 * same variable, and so are reads of one variable; a read and a write of it, or two writes, are
 * not.
 * Refusals in order: left_len is above 4,096 (2, place 4096) and the first frame of left that
 * fails (4 to 10 or 20, place: frame); then the same of right, with 256 added to the number. Both
 * are checked whole, whatever their lengths.
 * Stack: at most TRACE_STACK_EQUAL bytes.
 */
#define TRACE_STACK_EQUAL 9728
uint64_t trace_equal(const uint32_t *left, size_t left_len, const uint32_t *right,
                     size_t right_len);

/*
 * The serial order with declared guards: the units by the place of their commit, each with its
 * frames in recorded order. A variable that the list does not name is unprotected.
 * Count: words_len; that many words of out are written, later words keep their contents.
 * Refusals in order: 1, 11, 12 of the list (place: line); 2 words_len is above 4,096 (place
 * 4096); 4 to 10 or 20 of the first frame that fails (place: frame); 13 not reducible (place: the
 * violating frame); 14 a block still open at the end (place: the smallest of an open outermost
 * begin); 15 out_len is below words_len (place: words_len). A refusal writes nothing.
 * Stack: at most TRACE_STACK_SERIAL_DECLARED bytes.
 */
#define TRACE_STACK_SERIAL_DECLARED 11264
uint64_t trace_serial_declared(const uint8_t *list, size_t list_len, const uint32_t *words,
                               size_t words_len, uint32_t *out, size_t out_len);

/*
 * The serial order with inferred guards: count, refusals and out as for trace_serial_declared,
 * without 1, 11 and 12.
 * Stack: at most TRACE_STACK_SERIAL_INFERRED bytes.
 */
#define TRACE_STACK_SERIAL_INFERRED 11264
uint64_t trace_serial_inferred(const uint32_t *words, size_t words_len, uint32_t *out,
                               size_t out_len);

/*
 * How far each frame moves, with declared guards: moves[p] becomes the place in the serial order
 * of the frame recorded at p, less p; negative where it moved earlier, 0 where it stayed.
 * words[p] stands at place p + moves[p] of the order, and all of them add up to 0.
 * Count: words_len; that many numbers of moves are written, later ones keep their contents.
 * Refusals as for trace_serial_declared, but for 21 in the place of 15: moves_len is below
 * words_len (place: words_len). A refusal writes nothing.
 * Stack: at most TRACE_STACK_MOVES_DECLARED bytes.
 */
#define TRACE_STACK_MOVES_DECLARED 11264
uint64_t trace_moves_declared(const uint8_t *list, size_t list_len, const uint32_t *words,
                              size_t words_len, int32_t *moves, size_t moves_len);

/*
 * How far each frame moves, with inferred guards: count, refusals and moves as for
 * trace_moves_declared, without 1, 11 and 12.
 * Stack: at most TRACE_STACK_MOVES_INFERRED bytes.
 */
#define TRACE_STACK_MOVES_INFERRED 11264
uint64_t trace_moves_inferred(const uint32_t *words, size_t words_len, int32_t *moves,
                              size_t moves_len);

/*
 * Where each unit commits, with declared guards. A unit is an atomic block, from its outermost
 * begin to its end, or one frame outside any block; a block commits at the frame that takes it
 * after commit, or at its end. commits[p] becomes c + 1 for each unit that starts at p and commits
 * at c. All other entries keep their contents: those of frames inside blocks, and of a block that
 * is open at the end and has not committed. Units that start at commits_len or behind are left out.
 * The recording need not be reducible: a violation stops nothing here.
 * Count: words_len. Refusals in order: 1, 11, 12 of the list (place: line); 2 words_len is above
 * 4,096 (place 4096); 4 to 10 or 20 of the first frame that fails (place: frame). A refusal writes
 * nothing.
 * Stack: at most TRACE_STACK_COMMITS_DECLARED bytes.
 */
#define TRACE_STACK_COMMITS_DECLARED 2560
uint64_t trace_commits_declared(const uint8_t *list, size_t list_len, const uint32_t *words,
                                size_t words_len, uint32_t *commits, size_t commits_len);

/*
 * Where each unit commits, with inferred guards: count, refusals and commits as for
 * trace_commits_declared, without 1, 11 and 12.
 * Stack: at most TRACE_STACK_COMMITS_INFERRED bytes.
 */
#define TRACE_STACK_COMMITS_INFERRED 2560
uint64_t trace_commits_inferred(const uint32_t *words, size_t words_len, uint32_t *commits,
                                size_t commits_len);

/*
 * Writes a sound recording as text, a line for each frame, from place on. It need not be
 * reducible, nor its blocks closed.
 * Count: the bytes, 9 for each frame; that many are written from place on, all others keep their
 * contents. No frames are 0 bytes, also where place is text_len.
 * Refusals in order: 2 words_len is above 4,096 (place 4096); 4 to 10 or 20 of the first frame
 * that fails (place: frame); 19 place is above text_len, or fewer than 9 * words_len bytes stand
 * from there (place: 9 * words_len). A refusal writes nothing.
 * Stack: at most TRACE_STACK_WRITE bytes.
 */
#define TRACE_STACK_WRITE 512
uint64_t trace_write(const uint32_t *words, size_t words_len, uint8_t *text, size_t text_len,
                     size_t place);

/*
 * Reads the fields of a verdict line, as described in trace_check.h: exactly 33 bytes, 32 digits
 * 0-9 A-F and an LF. Kinds 0x00 to 0x04 and 0x81 to 0xFF read; no other field is tested. An
 * absent begin or commit is 0xFFFF. Each of the six pointers is to one number.
 * Reply: 0, and all six are written; or refusal 18 (place 0) for any other line, which leaves them
 * as they were.
 * Stack: at most TRACE_STACK_LINE_READ bytes.
 */
#define TRACE_STACK_LINE_READ 512
uint64_t trace_line_read(const uint8_t *line, size_t line_len, uint8_t *kind, uint16_t *frame,
                         uint8_t *thread, uint16_t *begin, uint16_t *commit, uint64_t *locks);

/*
 * Writes a verdict line of these fields. begin and commit are absent where they are 0xFFFF.
 * Count: 33; exactly the first 33 bytes of line are written.
 * Refusals in order: 17 line_len is below 33 (place 33); 18 the kind is none of 0x00 to 0x04 and
 * 0x81 to 0xFF (place 0). A refusal writes nothing.
 * Stack: at most TRACE_STACK_LINE_WRITE bytes.
 */
#define TRACE_STACK_LINE_WRITE 512
uint64_t trace_line_write(uint8_t kind, uint16_t frame, uint8_t thread, uint16_t begin,
                          uint16_t commit, uint64_t locks, uint8_t *line, size_t line_len);

/*
 * Words. The five functions below write what they say into out, from its start on and as far as
 * there is room; later bytes keep their contents. The reply is the number of bytes of the whole,
 * so out has it whole where the reply is at most out_len; it is never above TRACE_SAY_LENGTH. No
 * byte 0 ends it. None refuses.
 */
#define TRACE_SAY_LENGTH 4096

/*
 * The answer that a verdict line tells, in words: reducible, the violation with its block, its
 * commit and what to mend, or the refusal. words are those of the recording that the line is of;
 * they name what its frames do. With none it is what trace_say_line says, and with those of another
 * recording what stands there at the line's places is named. A line that is no verdict line is said
 * to be none, by refusal 18. Each line of the text ends with LF.
 * Stack: at most TRACE_STACK_SAY_VERDICT bytes.
 */
#define TRACE_STACK_SAY_VERDICT 5120
size_t trace_say_verdict(const uint8_t *line, size_t line_len, const uint32_t *words,
                         size_t words_len, uint8_t *out, size_t out_len);

/* What a refusal speaks of: trace_say_refusal names it so. */
enum trace_source {
    TRACE_SOURCE_RECORDING = 0, /* the recording */
    TRACE_SOURCE_GUARD_LIST = 1, /* the guard list */
    TRACE_SOURCE_LEFT = 2, /* the left recording */
    TRACE_SOURCE_RIGHT = 3, /* the right recording */
    TRACE_SOURCE_TEXT = 4 /* the text; so does every other number */
};

/*
 * A refusal in words: reply is that of the call that refused (TRACE_RIGHT in it is not looked at),
 * source one of enum trace_source. text is what was refused as text, or empty: where refusal 1 is
 * of a line that begins in it, its first wrong byte is named. words are the recording's, or none:
 * where refusals 7 to 10 and 20 are of one of them, what that frame does is named.
 * A reply that is no refusal has no words: 0 bytes. A number that this library does not give is
 * said to be one. The text ends with LF.
 * Stack: at most TRACE_STACK_SAY_REFUSAL bytes.
 */
#define TRACE_STACK_SAY_REFUSAL 5120
size_t trace_say_refusal(uint64_t reply, uint32_t source, const uint8_t *text, size_t text_len,
                         const uint32_t *words, size_t words_len, uint8_t *out, size_t out_len);

/*
 * A kept verdict line in words, as far as the line alone tells it: trace_say_verdict without words.
 * Stack: at most TRACE_STACK_SAY_LINE bytes.
 */
#define TRACE_STACK_SAY_LINE 5120
size_t trace_say_line(const uint8_t *line, size_t line_len, uint8_t *out, size_t out_len);

/*
 * The name of a kind: of TRACE_KIND_GUARD_NOT_HELD it is "guard not held", and so of the others.
 * That of the kind of a refusal is the refusal's name. A kind that no verdict line has, and one of
 * a refusal that this library does not give, has none: 0 bytes. No LF ends it.
 * Stack: at most TRACE_STACK_SAY_KIND bytes.
 */
#define TRACE_STACK_SAY_KIND 1024
size_t trace_say_kind(uint8_t kind, uint8_t *out, size_t out_len);

/*
 * The name of a refusal by its number: of TRACE_REFUSAL_MALFORMED_LINE it is "malformed line", and
 * so of the others. Any other number has none: 0 bytes. No LF ends it.
 * Stack: at most TRACE_STACK_SAY_REFUSAL_NAME bytes.
 */
#define TRACE_STACK_SAY_REFUSAL_NAME 1024
size_t trace_say_refusal_name(uint8_t number, uint8_t *out, size_t out_len);

#ifdef __cplusplus
}
#endif

#endif
