/*
 * Uses every name of the headers, in the common part of C89 to C23 and C++98 to C++23. Numbers are
 * written out from docs/FORMAT.md. Each macro is tried at its ends, with arguments and inside
 * expressions that bind more loosely and more tightly than its own operators, and for how often it
 * evaluates an argument; each function is called.
 */
#include "trace_check.h"
#include "trace_library.h"
#include "trace_check.h"
#include "trace_library.h"

#include <stdio.h>
#include <string.h>

#define CHECK(condition) check((condition) ? 1 : 0, #condition, __LINE__)

#if TRACE_MAX_FRAMES != 4096 || TRACE_THREADS != 32 || TRACE_LOCKS != 64 || \
    TRACE_VARIABLES != 1024 || TRACE_MAX_NESTING_DEPTH != 15 || TRACE_MAX_HOLDS != 15
#error "a limit is wrong"
#endif
#if TRACE_LINE_LENGTH != 33 || TRACE_TEXT_LINE_LENGTH != 9 || TRACE_SAY_LENGTH != 4096 || \
    TRACE_ABSENT != 65535
#error "a length or the absent place is wrong"
#endif
#if TRACE_RIGHT != 256
#error "what trace_equal adds is wrong"
#endif

/* Constants where only constants may stand. */
static const uint32_t words[] = {
    TRACE_FRAME(TRACE_OPERATION_BEGIN, 1, 0),   TRACE_FRAME(TRACE_OPERATION_ACQUIRE, 1, 0),
    TRACE_FRAME(TRACE_OPERATION_READ, 1, 0),    TRACE_FRAME(TRACE_OPERATION_WRITE, 1, 0),
    TRACE_FRAME(TRACE_OPERATION_RELEASE, 1, 0), TRACE_FRAME(TRACE_OPERATION_END, 1, 0)};
static const uint32_t frames[] = {0x05010000, 0x01010000, 0x03010000,
                                  0x04010000, 0x02010000, 0x06010000};
static const uint64_t replies[] = {
    TRACE_REPLY(TRACE_REFUSAL_LOCK_NOT_HELD, 3),
    TRACE_REPLY(TRACE_RIGHT + TRACE_REFUSAL_LOCK_NOT_HELD, 3)};
static const uint8_t kinds[] = {TRACE_KIND_OF_REFUSAL(TRACE_REFUSAL_LINE_TOO_SHORT)};
static const char text[] = "05010000\n01010000\n03010000\n04010000\n02010000\n06010000\n";
static const char guards[] = "00000000\n";
static const char reducible[] = "00000600FFFFFFFF0000000000000000\n";
static const char reducible_said[] = "reducible: no frame goes wrong; frames: 6.\n";

static int checks, failures;

static void check(int holds, const char *condition, int source_line)
{
    checks++;
    if (!holds) {
        failures++;
        printf("headers: line %d failed: %s\n", source_line, condition);
    }
}

/* Numbers that no compiler knows, and how often they were asked for. */
static volatile unsigned unknown_one = 1;
static unsigned asked;

static uint32_t ask32(uint32_t number)
{
    asked++;
    return unknown_one ? number : 0;
}

static uint64_t ask64(uint64_t number)
{
    asked++;
    return unknown_one ? number : 0;
}

static void check_enumerators(void)
{
    enum trace_operation operation = TRACE_OPERATION_WRITE;
    enum trace_kind kind = TRACE_KIND_CANDIDATE_SET_EMPTIED;
    enum trace_refusal refusal = TRACE_REFUSAL_MOVES_TOO_SHORT;
    enum trace_source source = TRACE_SOURCE_RIGHT;
    const uint32_t wide_operation = operation, wide_refusal = refusal, wide_source = source;
    const uint8_t narrow_kind = TRACE_KIND_CANDIDATE_SET_EMPTIED;
    CHECK(operation == 4 && wide_operation == 4);
    CHECK(kind == 4 && narrow_kind == kind);
    CHECK(refusal == 21);
    CHECK(source == 3 && wide_source == 3);
    CHECK(TRACE_FRAME(wide_operation, 31u, 1023u) == 0x041F03FFu);
    CHECK(TRACE_KIND_OF_REFUSAL(wide_refusal) == 0x95);
    CHECK(TRACE_REPLY(wide_refusal, 4096u) == 0x1500001000u);

    CHECK(TRACE_OPERATION_ACQUIRE == 1);
    CHECK(TRACE_OPERATION_RELEASE == 2);
    CHECK(TRACE_OPERATION_READ == 3);
    CHECK(TRACE_OPERATION_WRITE == 4);
    CHECK(TRACE_OPERATION_BEGIN == 5);
    CHECK(TRACE_OPERATION_END == 6);

    CHECK(TRACE_KIND_REDUCIBLE == 0);
    CHECK(TRACE_KIND_GUARD_NOT_HELD == 1);
    CHECK(TRACE_KIND_UNPROTECTED_ACCESS_AFTER_COMMIT == 2);
    CHECK(TRACE_KIND_ACQUIRE_AFTER_COMMIT == 3);
    CHECK(TRACE_KIND_CANDIDATE_SET_EMPTIED == 4);

    CHECK(TRACE_REFUSAL_MALFORMED_LINE == 1);
    CHECK(TRACE_REFUSAL_TOO_MANY_FRAMES == 2);
    CHECK(TRACE_REFUSAL_WORDS_TOO_SHORT == 3);
    CHECK(TRACE_REFUSAL_OPERATION_OUT_OF_RANGE == 4);
    CHECK(TRACE_REFUSAL_THREAD_OUT_OF_RANGE == 5);
    CHECK(TRACE_REFUSAL_OBJECT_OUT_OF_RANGE == 6);
    CHECK(TRACE_REFUSAL_LOCK_HELD_BY_OTHER == 7);
    CHECK(TRACE_REFUSAL_LOCK_NOT_HELD == 8);
    CHECK(TRACE_REFUSAL_NESTING_TOO_DEEP == 9);
    CHECK(TRACE_REFUSAL_NO_OPEN_BLOCK == 10);
    CHECK(TRACE_REFUSAL_GUARD_OUT_OF_RANGE == 11);
    CHECK(TRACE_REFUSAL_VARIABLE_ALREADY_NAMED == 12);
    CHECK(TRACE_REFUSAL_NOT_REDUCIBLE == 13);
    CHECK(TRACE_REFUSAL_BLOCK_STILL_OPEN == 14);
    CHECK(TRACE_REFUSAL_OUTPUT_TOO_SHORT == 15);
    CHECK(TRACE_REFUSAL_SETS_TOO_SHORT == 16);
    CHECK(TRACE_REFUSAL_LINE_TOO_SHORT == 17);
    CHECK(TRACE_REFUSAL_NOT_A_VERDICT_LINE == 18);
    CHECK(TRACE_REFUSAL_TEXT_TOO_SHORT == 19);
    CHECK(TRACE_REFUSAL_TOO_MANY_HOLDS == 20);
    CHECK(TRACE_REFUSAL_MOVES_TOO_SHORT == 21);

    CHECK(TRACE_SOURCE_RECORDING == 0);
    CHECK(TRACE_SOURCE_GUARD_LIST == 1);
    CHECK(TRACE_SOURCE_LEFT == 2);
    CHECK(TRACE_SOURCE_RIGHT == 3);
    CHECK(TRACE_SOURCE_TEXT == 4);
}

static void check_frames(void)
{
    const uint8_t narrow_operation = 6, narrow_thread = 31;
    const uint16_t narrow_object = 0xFFFF;
    const uint32_t zero = 0, one = ask32(1), ends = 0xFFFFFFFFu, frame = 0x041F03FFu;
    uint32_t composed = TRACE_FRAME(narrow_operation, narrow_thread, narrow_object);
    uint32_t operation = TRACE_FRAME_OPERATION(frame), thread = TRACE_FRAME_THREAD(frame);
    uint32_t object = TRACE_FRAME_OBJECT(frame);
    size_t n;
    CHECK(composed == 0x061FFFFFu);
    CHECK(operation == 4 && thread == 31 && object == 1023);
    for (n = 0; n < sizeof words / sizeof words[0]; n++)
        CHECK(words[n] == frames[n]);

    CHECK(TRACE_FRAME(0, 0, 0) == 0);
    CHECK(TRACE_FRAME(255, 255, 65535) == ends);
    CHECK(TRACE_FRAME(255, 0, 0) == 0xFF000000u);
    CHECK(TRACE_FRAME(0, 255, 0) == 0xFF0000u);
    CHECK(TRACE_FRAME(0, 0, 65535) == 0xFFFFu);
    CHECK(TRACE_FRAME_OPERATION(zero) == 0 && TRACE_FRAME_OPERATION(ends) == 255);
    CHECK(TRACE_FRAME_THREAD(zero) == 0 && TRACE_FRAME_THREAD(ends) == 255);
    CHECK(TRACE_FRAME_OBJECT(zero) == 0 && TRACE_FRAME_OBJECT(ends) == 65535);
    CHECK(TRACE_FRAME_OPERATION(0xFF000000u) == 255 && TRACE_FRAME_OPERATION(0xFFFFFFu) == 0);
    CHECK(TRACE_FRAME_THREAD(0xFF0000u) == 255 && TRACE_FRAME_THREAD(0xFF00FFFFu) == 0);
    CHECK(TRACE_FRAME_OBJECT(0xFFFFu) == 65535 && TRACE_FRAME_OBJECT(0xFFFF0000u) == 0);

    CHECK(TRACE_FRAME(one ? 4u : zero, 31u, 1023u) == frame);
    CHECK(TRACE_FRAME(4u, one ? 31u : zero, 1023u) == frame);
    CHECK(TRACE_FRAME(4u, 31u, one ? 1023u : zero) == frame);
    CHECK(TRACE_FRAME_OPERATION(one ? frame : zero) == 4);
    CHECK(TRACE_FRAME_THREAD(one ? frame : zero) == 31);
    CHECK(TRACE_FRAME_OBJECT(one ? frame : zero) == 1023);
    CHECK(2 * TRACE_FRAME(4u, 31u, 1023u) == 0x083E07FEu);
    CHECK(TRACE_FRAME(4u, 31u, 1023u) * 2 == 0x083E07FEu);
    CHECK(2 * TRACE_FRAME_OPERATION(ends) == 510 && TRACE_FRAME_OPERATION(ends) * 2 == 510);
    CHECK(2 * TRACE_FRAME_THREAD(ends) == 510 && TRACE_FRAME_THREAD(ends) * 2 == 510);
    CHECK(2 * TRACE_FRAME_OBJECT(ends) == 131070 && TRACE_FRAME_OBJECT(ends) * 2 == 131070);

    asked = 0;
    CHECK(TRACE_FRAME(ask32(4), ask32(31), ask32(1023)) == frame && asked == 3);
    CHECK(TRACE_FRAME_OPERATION(ask32(frame)) == 4 && asked == 4);
    CHECK(TRACE_FRAME_THREAD(ask32(frame)) == 31 && asked == 5);
    CHECK(TRACE_FRAME_OBJECT(ask32(frame)) == 1023 && asked == 6);
}

static void check_kinds(void)
{
    const uint8_t refused = 0x91, largest = 0xFF;
    const uint32_t zero = 0, one = ask32(1), number = ask32(17);
    uint8_t kind = TRACE_KIND_OF_REFUSAL(number);
    uint8_t back = TRACE_KIND_REFUSAL(refused);
    CHECK(kind == 0x91 && back == 17 && kinds[0] == 0x91);
    CHECK(TRACE_KIND_OF_REFUSAL(1) == 0x81 && TRACE_KIND_OF_REFUSAL(21) == 0x95);
    CHECK(TRACE_KIND_OF_REFUSAL(127) == 0xFF);
    CHECK(TRACE_KIND_REFUSAL(0x81u) == 1 && TRACE_KIND_REFUSAL(largest) == 127);
    CHECK(!TRACE_KIND_IS_REFUSAL(zero) && !TRACE_KIND_IS_REFUSAL(ask32(4)));
    CHECK(!TRACE_KIND_IS_REFUSAL(0x80u) && TRACE_KIND_IS_REFUSAL(0x81u));
    CHECK(TRACE_KIND_IS_REFUSAL(refused) && TRACE_KIND_IS_REFUSAL(largest));

    CHECK(TRACE_KIND_OF_REFUSAL(one ? number : zero) == 0x91);
    CHECK(TRACE_KIND_IS_REFUSAL(one ? refused : zero) == 1);
    CHECK(TRACE_KIND_REFUSAL(one ? refused : zero) == 17);
    CHECK(2 * TRACE_KIND_OF_REFUSAL(number) == 0x122 && TRACE_KIND_OF_REFUSAL(number) * 2 == 0x122);
    CHECK(1 + TRACE_KIND_IS_REFUSAL(refused) == 2 && TRACE_KIND_IS_REFUSAL(refused) + 1 == 2);
    CHECK(2 * TRACE_KIND_REFUSAL(largest) == 254 && TRACE_KIND_REFUSAL(largest) * 2 == 254);

    asked = 0;
    CHECK(TRACE_KIND_OF_REFUSAL(ask32(17)) == 0x91 && asked == 1);
    CHECK(TRACE_KIND_IS_REFUSAL(ask32(0x91)) && asked == 2);
    CHECK(TRACE_KIND_REFUSAL(ask32(0x91)) == 17 && asked == 3);
}

static void check_replies(void)
{
    const uint64_t zero = 0, one = ask64(1), ends = 0xFFFFFFFFFFFFFFFFu, count = 0xFFFFFFFFu;
    const uint64_t left = 0x800000003u, right = 0x10800000003u, least = 0x100000000u;
    const size_t place = 3;
    uint32_t narrow_number = TRACE_REPLY_REFUSAL(right), narrow_place = TRACE_REPLY_PLACE(right);
    uint32_t narrow_count = TRACE_REPLY_COUNT(count);
    size_t wide_count = TRACE_REPLY_COUNT(count);
    CHECK(narrow_number == 8 && narrow_place == 3);
    CHECK(narrow_count == 0xFFFFFFFFu && wide_count == 0xFFFFFFFFu);
    CHECK(replies[0] == left && replies[1] == right);

    CHECK(TRACE_REPLY(0, 0) == 0 && TRACE_REPLY(1, 0) == least);
    CHECK(TRACE_REPLY(0xFFFFFFFFu, 0xFFFFFFFFu) == ends);
    CHECK(TRACE_REPLY(0, 0xFFFFFFFFu) == count);
    CHECK(TRACE_REPLY(narrow_number, place) == left);
    CHECK(!TRACE_REPLY_IS_REFUSAL(zero) && !TRACE_REPLY_IS_REFUSAL(count));
    CHECK(TRACE_REPLY_IS_REFUSAL(least) && TRACE_REPLY_IS_REFUSAL(ends));
    CHECK(!TRACE_REPLY_IS_RIGHT(zero) && !TRACE_REPLY_IS_RIGHT(count));
    CHECK(!TRACE_REPLY_IS_RIGHT(left) && TRACE_REPLY_IS_RIGHT(right));
    CHECK(TRACE_REPLY_IS_RIGHT(ends));
    CHECK(!TRACE_REPLY_IS_RIGHT(0xFFFFFEFFFFFFFFFFu) && TRACE_REPLY_IS_RIGHT(0x10000000000u));
    CHECK(TRACE_REPLY_REFUSAL(zero) == 0 && TRACE_REPLY_REFUSAL(count) == 0);
    CHECK(TRACE_REPLY_REFUSAL(left) == 8 && TRACE_REPLY_REFUSAL(right) == 8);
    CHECK(TRACE_REPLY_REFUSAL(ends) == 255 && TRACE_REPLY_REFUSAL(0xFF00000000u) == 255);
    CHECK(TRACE_REPLY_PLACE(zero) == 0 && TRACE_REPLY_PLACE(right) == 3);
    CHECK(TRACE_REPLY_PLACE(ends) == 0xFFFFFFFFu && TRACE_REPLY_PLACE(least) == 0);
    CHECK(TRACE_REPLY_COUNT(zero) == 0 && TRACE_REPLY_COUNT(count) == 0xFFFFFFFFu);
    CHECK(TRACE_REPLY_COUNT(ends) == 0xFFFFFFFFu && TRACE_REPLY_COUNT(least) == 0);

    CHECK(TRACE_REPLY(one ? 8u : zero, 3u) == left);
    CHECK(TRACE_REPLY(8u, one ? 3u : zero) == left);
    CHECK(TRACE_REPLY_IS_REFUSAL(one ? left : zero) == 1);
    CHECK(TRACE_REPLY_IS_RIGHT(one ? right : zero) == 1);
    CHECK(TRACE_REPLY_IS_RIGHT(one ? left : zero) == 0);
    CHECK(TRACE_REPLY_REFUSAL(one ? left : zero) == 8);
    CHECK(TRACE_REPLY_PLACE(one ? left : zero) == 3);
    CHECK(TRACE_REPLY_COUNT(one ? left : zero) == 3);
    CHECK(2 * TRACE_REPLY(8u, 3u) == 0x1000000006u && TRACE_REPLY(8u, 3u) * 2 == 0x1000000006u);
    CHECK(1 + TRACE_REPLY_IS_REFUSAL(left) == 2 && TRACE_REPLY_IS_REFUSAL(left) + 1 == 2);
    CHECK(1 + TRACE_REPLY_IS_RIGHT(right) == 2 && TRACE_REPLY_IS_RIGHT(right) + 1 == 2);
    CHECK(2 * TRACE_REPLY_REFUSAL(ends) == 510 && TRACE_REPLY_REFUSAL(ends) * 2 == 510);
    CHECK(2 * TRACE_REPLY_PLACE(ends) == 0x1FFFFFFFEu);
    CHECK(TRACE_REPLY_PLACE(ends) * 2 == 0x1FFFFFFFEu);
    CHECK(2 * TRACE_REPLY_COUNT(ends) == 0x1FFFFFFFEu);
    CHECK(TRACE_REPLY_COUNT(ends) * 2 == 0x1FFFFFFFEu);

    asked = 0;
    CHECK(TRACE_REPLY(ask64(8), ask64(3)) == left && asked == 2);
    CHECK(TRACE_REPLY_IS_REFUSAL(ask64(left)) && asked == 3);
    CHECK(TRACE_REPLY_IS_RIGHT(ask64(right)) && asked == 4);
    CHECK(TRACE_REPLY_REFUSAL(ask64(left)) == 8 && asked == 5);
    CHECK(TRACE_REPLY_PLACE(ask64(left)) == 3 && asked == 6);
    CHECK(TRACE_REPLY_COUNT(ask64(left)) == 3 && asked == 7);

    switch (left) {
    case TRACE_REPLY(TRACE_REFUSAL_LOCK_NOT_HELD, 3):
        CHECK(left == 0x800000003u);
        break;
    default:
        CHECK(0);
        break;
    }
}

/* The figures themselves are measured by tests/c/stack.c. */
static void check_stacks(void)
{
    static const int stacks[] = {
        TRACE_STACK_CHECK,            TRACE_STACK_READ,
        TRACE_STACK_GUARDS,           TRACE_STACK_DECLARED,
        TRACE_STACK_INFERRED,         TRACE_STACK_EQUAL,
        TRACE_STACK_SERIAL_DECLARED,  TRACE_STACK_SERIAL_INFERRED,
        TRACE_STACK_MOVES_DECLARED,   TRACE_STACK_MOVES_INFERRED,
        TRACE_STACK_COMMITS_DECLARED, TRACE_STACK_COMMITS_INFERRED,
        TRACE_STACK_WRITE,            TRACE_STACK_LINE_READ,
        TRACE_STACK_LINE_WRITE,       TRACE_STACK_SAY_VERDICT,
        TRACE_STACK_SAY_REFUSAL,      TRACE_STACK_SAY_LINE,
        TRACE_STACK_SAY_KIND,         TRACE_STACK_SAY_REFUSAL_NAME};
    size_t n;
    CHECK(sizeof stacks / sizeof stacks[0] == 20);
    for (n = 0; n < sizeof stacks / sizeof stacks[0]; n++)
        CHECK(stacks[n] > 0 && stacks[n] % 512 == 0);
}

static void call_functions(void)
{
    const size_t six = sizeof frames / sizeof frames[0];
    uint8_t lent_text[sizeof text - 1], lent_guards[sizeof guards - 1];
    uint8_t line[TRACE_LINE_LENGTH], kind, thread;
    uint16_t frame, begin, commit;
    uint32_t read[6], order[6], commits[6];
    int32_t moves[6];
    uint64_t sets[TRACE_VARIABLES], locks, reply;
    uint8_t said[64];
    size_t n;
    memcpy(lent_text, text, sizeof lent_text);
    memcpy(lent_guards, guards, sizeof lent_guards);

    memset(line, 0, sizeof line);
    CHECK(trace_check(lent_text, sizeof lent_text, line, sizeof line) == TRACE_KIND_REDUCIBLE);
    CHECK(memcmp(line, reducible, sizeof line) == 0);
    CHECK(trace_check(lent_text, sizeof lent_text, line, sizeof line - 1) ==
          TRACE_KIND_OF_REFUSAL(TRACE_REFUSAL_LINE_TOO_SHORT));
    CHECK(trace_read(lent_text, sizeof lent_text, read, 6) == 6);
    CHECK(memcmp(read, frames, sizeof frames) == 0);
    CHECK(trace_guards(lent_guards, sizeof lent_guards) == 1);
    memset(line, 0, sizeof line);
    CHECK(trace_declared(lent_guards, sizeof lent_guards, frames, six, line, sizeof line) == 0);
    CHECK(memcmp(line, reducible, sizeof line) == 0);
    memset(line, 0, sizeof line);
    CHECK(trace_inferred(frames, six, sets, TRACE_VARIABLES, line, sizeof line) == 0);
    CHECK(memcmp(line, reducible, sizeof line) == 0);
    CHECK(sets[0] == 1 && sets[1] == 0xFFFFFFFFFFFFFFFFu);
    CHECK(trace_equal(frames, six, read, 6) == 1);
    reply = trace_equal(frames, six, frames + 1, 4);
    CHECK(!TRACE_REPLY_IS_REFUSAL(reply) && TRACE_REPLY_COUNT(reply) == 0);
    reply = trace_equal(frames, six, frames + 2, 3);
    CHECK(TRACE_REPLY_IS_RIGHT(reply) && TRACE_REPLY_PLACE(reply) == 2);
    CHECK(TRACE_REPLY_REFUSAL(reply) == TRACE_REFUSAL_LOCK_NOT_HELD);
    CHECK(reply == TRACE_REPLY(TRACE_RIGHT + TRACE_REFUSAL_LOCK_NOT_HELD, 2));

    memset(order, 0, sizeof order);
    CHECK(trace_serial_declared(lent_guards, sizeof lent_guards, frames, six, order, 6) == 6);
    CHECK(memcmp(order, frames, sizeof frames) == 0);
    memset(order, 0, sizeof order);
    CHECK(trace_serial_inferred(frames, six, order, 6) == 6);
    CHECK(memcmp(order, frames, sizeof frames) == 0);
    CHECK(trace_serial_inferred(frames, 1, order, 6) ==
          TRACE_REPLY(TRACE_REFUSAL_BLOCK_STILL_OPEN, 0));
    memset(moves, 1, sizeof moves);
    CHECK(trace_moves_declared(lent_guards, sizeof lent_guards, frames, six, moves, 6) == 6);
    for (n = 0; n < six; n++)
        CHECK(moves[n] == 0);
    memset(moves, 1, sizeof moves);
    CHECK(trace_moves_inferred(frames, six, moves, 6) == 6);
    for (n = 0; n < six; n++)
        CHECK(moves[n] == 0);

    memset(commits, 0, sizeof commits);
    CHECK(trace_commits_declared(lent_guards, sizeof lent_guards, frames, six, commits, 6) == 6);
    CHECK(commits[0] == 5 && commits[1] == 0);
    memset(commits, 0, sizeof commits);
    CHECK(trace_commits_inferred(frames, six, commits, 6) == 6);
    CHECK(commits[0] == 5 && commits[1] == 0);

    memset(lent_text, 0, sizeof lent_text);
    CHECK(trace_write(frames, six, lent_text, sizeof lent_text, 0) == 54);
    CHECK(memcmp(lent_text, text, sizeof lent_text) == 0);
    CHECK(trace_line_read(line, sizeof line, &kind, &frame, &thread, &begin, &commit, &locks) == 0);
    CHECK(kind == TRACE_KIND_REDUCIBLE && frame == 6 && thread == 0 && locks == 0);
    CHECK(begin == TRACE_ABSENT && commit == TRACE_ABSENT);
    memset(line, 0, sizeof line);
    CHECK(trace_line_write(kind, frame, thread, begin, commit, locks, line, sizeof line) == 33);
    CHECK(memcmp(line, reducible, sizeof line) == 0);

    CHECK(trace_say_verdict(line, sizeof line, frames, six, said, sizeof said) ==
          sizeof reducible_said - 1);
    CHECK(memcmp(said, reducible_said, sizeof reducible_said - 1) == 0);
    memset(said, 0, sizeof said);
    CHECK(trace_say_line(line, sizeof line, said, sizeof said) == sizeof reducible_said - 1);
    CHECK(memcmp(said, reducible_said, sizeof reducible_said - 1) == 0);
    memset(said, 0, sizeof said);
    reply = TRACE_REPLY(TRACE_REFUSAL_TOO_MANY_FRAMES, TRACE_MAX_FRAMES);
    CHECK(trace_say_refusal(reply, TRACE_SOURCE_GUARD_LIST, lent_text, 0, frames, 0, said,
                            sizeof said) > sizeof said);
    CHECK(memcmp(said, "refused: number 2, the guard list has more than 4096 lines; cut ",
                 sizeof said) == 0);
    CHECK(trace_say_kind(TRACE_KIND_REDUCIBLE, said, sizeof said) == 9);
    CHECK(memcmp(said, "reducible", 9) == 0);
    CHECK(trace_say_refusal_name(TRACE_REFUSAL_LOCK_NOT_HELD, said, sizeof said) == 13);
    CHECK(memcmp(said, "lock not held", 13) == 0);
}

int main(void)
{
    check_enumerators();
    check_frames();
    check_kinds();
    check_replies();
    check_stacks();
    call_functions();
    printf("headers: %d checks, %d failed\n", checks, failures);
    return failures > 0 ? 1 : 0;
}
