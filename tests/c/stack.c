/*
 * The stack that each call uses. Each call runs on a stack of its own, filled with a pattern
 * before; its figure is how far below its caller's frame the pattern is gone. No figure is above
 * what the headers state for its function, and the largest is at most SPARE bytes below that. Of
 * the serial order, the displacements and the commits no figure is above LIMIT, and none grows with
 * the recording. A memory checker changes stacks: this program runs without one.
 */
#define _XOPEN_SOURCE 600

#include "trace_library.h"

#include <inttypes.h>
#include <stdio.h>
#include <stdlib.h>
#include <string.h>
#include <ucontext.h>

#define LIMIT 16384
#define SPARE 1023
#define LONGEST TRACE_MAX_FRAMES
/*
 * A call that refuses may use less than this more than one on no frames: for the function that
 * checks what follows a violation. It is a bit for each frame of the longest recording, so that no
 * table with an entry for each frame is below it. A call that writes uses no byte more.
 */
#define FOR_REFUSAL (LONGEST / 8)
#define STACK (256 * 1024)
/* The low end of the stack, which no call may reach. */
#define EDGE (64 * 1024)
#define COUNT(array) (sizeof(array) / sizeof(array)[0])

/* A call, with the number of lines of its guard list, and the refusal of these, or 0. */
struct request {
    const char *name;
    enum call {
        CHECK,
        READ,
        GUARDS,
        DECLARED,
        INFERRED,
        EQUAL,
        SERIAL_DECLARED,
        SERIAL_INFERRED,
        MOVES_DECLARED,
        MOVES_INFERRED,
        COMMITS_DECLARED,
        COMMITS_INFERRED,
        WRITE,
        LINE_READ,
        LINE_WRITE,
        SAY_VERDICT,
        SAY_REFUSAL,
        SAY_LINE,
        SAY_KIND,
        SAY_REFUSAL_NAME,
        CALLS
    } call;
    size_t lines;
    uint64_t refusal;
};

#define GUARDS_REFUSED TRACE_REPLY(TRACE_REFUSAL_VARIABLE_ALREADY_NAMED, TRACE_VARIABLES)

static const struct request requests[] = {
    {"trace_serial_inferred", SERIAL_INFERRED, 0, 0},
    {"trace_serial_declared, no guards", SERIAL_DECLARED, 0, 0},
    {"trace_serial_declared, a guard for each variable", SERIAL_DECLARED, TRACE_VARIABLES, 0},
    {"trace_serial_declared, guards refused", SERIAL_DECLARED, TRACE_VARIABLES + 1,
     GUARDS_REFUSED},
    {"trace_moves_inferred", MOVES_INFERRED, 0, 0},
    {"trace_moves_declared, no guards", MOVES_DECLARED, 0, 0},
    {"trace_moves_declared, a guard for each variable", MOVES_DECLARED, TRACE_VARIABLES, 0},
    {"trace_moves_declared, guards refused", MOVES_DECLARED, TRACE_VARIABLES + 1,
     GUARDS_REFUSED},
};

struct input {
    const char *name;
    enum { TURNS, BLOCK, WRONG } shape;
    enum { CLOSED, VIOLATION, UNGUARDED, OPEN, SHORT, REFUSED } ending;
};

static const struct input inputs[] = {
    {"threads in turn", TURNS, CLOSED},
    {"one block", BLOCK, CLOSED},
    {"a violation at frame 3", WRONG, CLOSED},
    {"a violation at the last frame", TURNS, VIOLATION},
    {"an access without its lock at the last frame", TURNS, UNGUARDED},
    {"a block still open", TURNS, OPEN},
    {"output one short", TURNS, SHORT},
    {"the last frame refused", TURNS, REFUSED},
    {"a violation at frame 3, the last refused", WRONG, REFUSED},
};

static const size_t lengths[] = {8, 64, 512, LONGEST};

/* What is lent to a call, what it answers, and its caller's frame. */
static enum call call;
static uint8_t list[TRACE_TEXT_LINE_LENGTH * (TRACE_VARIABLES + 1)];
static uint8_t text[TRACE_TEXT_LINE_LENGTH * (LONGEST + 1)];
static uint32_t words[LONGEST + 1], right[LONGEST + 1], out[LONGEST], expected[LONGEST];
static uint64_t sets[TRACE_VARIABLES];
static uint8_t line[TRACE_LINE_LENGTH];
static size_t list_len, text_len, words_len, right_len, out_len, sets_len, line_len;
static uint8_t kind;
static uint8_t said[4096];
static size_t said_len;
static uint64_t refused;
static uint32_t source;
/* The places of the recording in serial order. */
static size_t order[LONGEST];
static uint64_t reply;
static uintptr_t caller;

static unsigned char stack[STACK];
static ucontext_t here, there;

static void fail(const char *what)
{
    printf("c: stack: %s\n", what);
    exit(1);
}

/* A function for each call, so that the frame of each caller is no larger than its own call. */
#define CALLER(name, given) \
    static void name(void) \
    { \
        caller = (uintptr_t)__builtin_frame_address(0); \
        reply = given; \
    }

CALLER(check, trace_check(text, text_len, line, line_len))
CALLER(read_text, trace_read(text, text_len, out, out_len))
CALLER(guards, trace_guards(list, list_len))
CALLER(declared, trace_declared(list, list_len, words, words_len, line, line_len))
CALLER(inferred, trace_inferred(words, words_len, sets, sets_len, line, line_len))
CALLER(equal, trace_equal(words, words_len, right, right_len))
CALLER(serial_declared, trace_serial_declared(list, list_len, words, words_len, out, out_len))
CALLER(serial_inferred, trace_serial_inferred(words, words_len, out, out_len))
CALLER(moves_declared,
       trace_moves_declared(list, list_len, words, words_len, (int32_t *)out, out_len))
CALLER(moves_inferred, trace_moves_inferred(words, words_len, (int32_t *)out, out_len))
CALLER(commits_declared, trace_commits_declared(list, list_len, words, words_len, out, out_len))
CALLER(commits_inferred, trace_commits_inferred(words, words_len, out, out_len))
CALLER(write_text, trace_write(words, words_len, text, text_len, 0))

static void line_read(void)
{
    static uint8_t thread;
    static uint16_t frame, begin, commit;
    static uint64_t locks;
    caller = (uintptr_t)__builtin_frame_address(0);
    reply = trace_line_read(line, line_len, &kind, &frame, &thread, &begin, &commit, &locks);
}

CALLER(line_write, trace_line_write(kind, 4, 1, 0, TRACE_ABSENT, 1, line, line_len))
CALLER(say_verdict, trace_say_verdict(line, line_len, words, words_len, said, said_len))
CALLER(say_refusal,
       trace_say_refusal(refused, source, text, text_len, words, words_len, said, said_len))
CALLER(say_line, trace_say_line(line, line_len, said, said_len))
CALLER(say_kind, trace_say_kind(kind, said, said_len))
CALLER(say_refusal_name, trace_say_refusal_name(kind, said, said_len))

/* Each function, what the headers state of its stack, and the largest figure of its calls. */
static struct {
    const char *name;
    size_t stated;
    void (*caller)(void);
    size_t most;
} functions[CALLS] = {
    [CHECK] = {"trace_check", TRACE_STACK_CHECK, check, 0},
    [READ] = {"trace_read", TRACE_STACK_READ, read_text, 0},
    [GUARDS] = {"trace_guards", TRACE_STACK_GUARDS, guards, 0},
    [DECLARED] = {"trace_declared", TRACE_STACK_DECLARED, declared, 0},
    [INFERRED] = {"trace_inferred", TRACE_STACK_INFERRED, inferred, 0},
    [EQUAL] = {"trace_equal", TRACE_STACK_EQUAL, equal, 0},
    [SERIAL_DECLARED] = {"trace_serial_declared", TRACE_STACK_SERIAL_DECLARED, serial_declared, 0},
    [SERIAL_INFERRED] = {"trace_serial_inferred", TRACE_STACK_SERIAL_INFERRED, serial_inferred, 0},
    [MOVES_DECLARED] = {"trace_moves_declared", TRACE_STACK_MOVES_DECLARED, moves_declared, 0},
    [MOVES_INFERRED] = {"trace_moves_inferred", TRACE_STACK_MOVES_INFERRED, moves_inferred, 0},
    [COMMITS_DECLARED] = {"trace_commits_declared", TRACE_STACK_COMMITS_DECLARED,
                          commits_declared, 0},
    [COMMITS_INFERRED] = {"trace_commits_inferred", TRACE_STACK_COMMITS_INFERRED,
                          commits_inferred, 0},
    [WRITE] = {"trace_write", TRACE_STACK_WRITE, write_text, 0},
    [LINE_READ] = {"trace_line_read", TRACE_STACK_LINE_READ, line_read, 0},
    [LINE_WRITE] = {"trace_line_write", TRACE_STACK_LINE_WRITE, line_write, 0},
    [SAY_VERDICT] = {"trace_say_verdict", TRACE_STACK_SAY_VERDICT, say_verdict, 0},
    [SAY_REFUSAL] = {"trace_say_refusal", TRACE_STACK_SAY_REFUSAL, say_refusal, 0},
    [SAY_LINE] = {"trace_say_line", TRACE_STACK_SAY_LINE, say_line, 0},
    [SAY_KIND] = {"trace_say_kind", TRACE_STACK_SAY_KIND, say_kind, 0},
    [SAY_REFUSAL_NAME] = {"trace_say_refusal_name", TRACE_STACK_SAY_REFUSAL_NAME,
                          say_refusal_name, 0},
};

/* How many calls were measured. */
static int measured;

static void run(void)
{
    if (getcontext(&there) != 0)
        fail("no context");
    there.uc_stack.ss_sp = stack;
    there.uc_stack.ss_size = sizeof stack;
    there.uc_link = &here;
    makecontext(&there, functions[call].caller, 0);
    if (swapcontext(&here, &there) != 0)
        fail("no context");
}

/* From the caller's frame down to the lowest byte that does not have the pattern. */
static size_t run_over(unsigned char pattern)
{
    size_t lowest = 0;
    memset(stack, pattern, sizeof stack);
    run();
    while (lowest < sizeof stack && stack[lowest] == pattern)
        lowest++;
    if (lowest < EDGE)
        fail("a call came to the end of its stack");
    return caller - (uintptr_t)(stack + lowest);
}

/*
 * A byte that is written differs from one of the patterns. The first run is not measured: at the
 * first call of memcpy or memset the dynamic linker looks it up, on the stack of its caller.
 */
static size_t figure(void)
{
    run();
    size_t one = run_over(0xA5), other = run_over(0x5A);
    size_t bytes = one > other ? one : other;
    measured++;
    if (bytes > functions[call].most)
        functions[call].most = bytes;
    return bytes;
}

/*
 * Rounds of eight frames for each thread, taken in turn. A thread has a lock, and a variable for
 * each round; its units are three single frames, then a block, which commits at its release, or
 * at its write where no guard is declared.
 */
static void fill_turns(void)
{
    static const enum trace_operation steps[] = {
        TRACE_OPERATION_ACQUIRE, TRACE_OPERATION_READ,    TRACE_OPERATION_RELEASE,
        TRACE_OPERATION_BEGIN,   TRACE_OPERATION_ACQUIRE, TRACE_OPERATION_WRITE,
        TRACE_OPERATION_RELEASE, TRACE_OPERATION_END,
    };
    size_t threads = words_len / 8 < TRACE_THREADS ? words_len / 8 : TRACE_THREADS;
    for (size_t first = 0; first < words_len; first += 8 * threads) {
        size_t variables = first / 8, n = first;
        for (size_t step = 0; step < 8; step++)
            for (size_t thread = 0; thread < threads; thread++) {
                size_t object = thread;
                switch (steps[step]) {
                case TRACE_OPERATION_READ:
                case TRACE_OPERATION_WRITE:
                    object = variables + thread;
                    break;
                case TRACE_OPERATION_BEGIN:
                case TRACE_OPERATION_END:
                    object = 0;
                    break;
                default:
                    break;
                }
                words[n++] = TRACE_FRAME(steps[step], thread, object);
            }
        /* The serial order: single frames as they are, then block after block. */
        for (n = first; n < first + 3 * threads; n++)
            order[n] = n;
        for (size_t thread = 0; thread < threads; thread++)
            for (size_t step = 3; step < 8; step++)
                order[n++] = first + step * threads + thread;
    }
}

/* One block of one thread. All its acquires but the first are inner, or else wrong. */
static void fill_block(int inner)
{
    size_t last = words_len - 1;
    words[0] = TRACE_FRAME(TRACE_OPERATION_BEGIN, 0, 0);
    for (size_t n = 1; n < last; n++) {
        int acquires = inner ? n == 1 || (n % 2 == 0 && n < last - 1) : n % 2 == 1;
        words[n] =
            TRACE_FRAME(acquires ? TRACE_OPERATION_ACQUIRE : TRACE_OPERATION_RELEASE, 0, 0);
    }
    words[last] = TRACE_FRAME(TRACE_OPERATION_END, 0, 0);
    for (size_t n = 0; n < words_len; n++)
        order[n] = n;
}

/* Fills words and expected; what the call answers, if its list is not refused. */
static uint64_t fill(const struct input *input, size_t frames)
{
    int displaced = call == MOVES_INFERRED || call == MOVES_DECLARED;
    words_len = out_len = frames;
    if (frames == 0)
        return 0;
    if (input->shape == TURNS)
        fill_turns();
    else
        fill_block(input->shape == BLOCK);
    for (size_t n = 0; n < frames; n++)
        if (displaced)
            expected[order[n]] = (uint32_t)(n - order[n]);
        else
            expected[n] = words[order[n]];
    /* The last frame ends a block that has committed; its thread is the last one. */
    uint32_t *last = &words[frames - 1];
    size_t thread = TRACE_FRAME_THREAD(*last);
    switch (input->ending) {
    case VIOLATION:
        *last = TRACE_FRAME(TRACE_OPERATION_ACQUIRE, thread, thread);
        return TRACE_REPLY(TRACE_REFUSAL_NOT_REDUCIBLE, frames - 1);
    case UNGUARDED: /* the variable is its thread's of the first round */
        *last = TRACE_FRAME(TRACE_OPERATION_READ, thread, thread);
        return TRACE_REPLY(TRACE_REFUSAL_NOT_REDUCIBLE, frames - 1);
    case OPEN: /* its begin is four steps before, each of all threads */
        *last = TRACE_FRAME(TRACE_OPERATION_BEGIN, thread, 0);
        return TRACE_REPLY(TRACE_REFUSAL_BLOCK_STILL_OPEN, frames - 1 - 4 * (thread + 1));
    case SHORT:
        out_len = frames - 1;
        return TRACE_REPLY(
            displaced ? TRACE_REFUSAL_MOVES_TOO_SHORT : TRACE_REFUSAL_OUTPUT_TOO_SHORT, frames);
    case REFUSED:
        *last = TRACE_FRAME(TRACE_OPERATION_END + 1, thread, 0);
        return TRACE_REPLY(TRACE_REFUSAL_OPERATION_OUT_OF_RANGE, frames - 1);
    default:
        return input->shape == WRONG ? TRACE_REPLY(TRACE_REFUSAL_NOT_REDUCIBLE, 3) : frames;
    }
}

static void say(const struct request *request)
{
    printf("c: stack of %s: ", request->name);
}

/* The figure of a call on an input of so many frames. A wrong answer ends the program. */
static size_t measure(const struct request *request, const struct input *input, size_t frames)
{
    call = request->call;
    uint64_t answer = fill(input, frames);
    list_len = TRACE_TEXT_LINE_LENGTH * request->lines;
    if (request->refusal != 0)
        answer = request->refusal;
    memset(out, 0xFF, sizeof out);
    size_t bytes = figure(), written = TRACE_REPLY_IS_REFUSAL(answer) ? 0 : frames;
    int good = reply == answer && memcmp(out, expected, written * sizeof out[0]) == 0;
    for (size_t place = written; place < LONGEST; place++)
        good = good && out[place] == UINT32_MAX;
    if (!good) {
        say(request);
        printf("%s, %zu frames: answered %016" PRIx64 ", or wrote something wrong\n", input->name,
               frames, reply);
        exit(1);
    }
    return bytes;
}

/* The figures of a call; whether they are as they must be. */
static int test(const struct request *request)
{
    size_t none = measure(request, &inputs[0], 0), most = none;
    int good = 1;
    for (size_t i = 0; i < COUNT(inputs); i++) {
        int writes = inputs[i].shape != WRONG && inputs[i].ending == CLOSED;
        size_t bytes[COUNT(lengths)];
        int same = 1;
        for (size_t l = 0; l < COUNT(lengths); l++) {
            bytes[l] = measure(request, &inputs[i], lengths[l]);
            same = same && bytes[l] == (writes ? none : bytes[0]);
            if (bytes[l] > most)
                most = bytes[l];
        }
        if (!same) {
            good = 0;
            say(request);
            printf("%s: it changes with the recording,", inputs[i].name);
            for (size_t l = 0; l < COUNT(lengths); l++)
                printf(" %zu bytes at %zu frames,", bytes[l], lengths[l]);
            printf(" %zu at none\n", none);
        }
    }
    say(request);
    printf("%zu bytes at 0 frames, at most %zu at 8 to %d\n", none, most, LONGEST);
    if (most > LIMIT) {
        good = 0;
        say(request);
        printf("above the limit of %d bytes\n", LIMIT);
    }
    if (most - none >= FOR_REFUSAL) {
        good = 0;
        say(request);
        printf("for a refusal it is %d bytes or more above that at 0 frames\n", FOR_REFUSAL);
    }
    return good;
}

/* Measures a call of what is lent now. A wrong answer ends the program. */
static size_t answers(enum call chosen, uint64_t answer)
{
    call = chosen;
    size_t bytes = figure();
    if (reply != answer) {
        printf("c: stack of %s: answered %016" PRIx64 ", not %016" PRIx64 "\n",
               functions[call].name, reply, answer);
        exit(1);
    }
    return bytes;
}

/*
 * Measures a call that writes commits, with room and without, if its list and its recording are
 * sound. The first is on no frames; those after it use no byte more.
 */
static void answers_commits(enum call chosen, size_t frames)
{
    static size_t none[CALLS];
    for (out_len = 0; out_len <= LONGEST; out_len += LONGEST) {
        size_t bytes = answers(chosen, frames);
        if (frames == 0 && bytes > none[chosen])
            none[chosen] = bytes;
        if (bytes > none[chosen] || bytes > LIMIT) {
            printf("c: stack of %s: %zu bytes at %zu frames, %zu at none\n", functions[call].name,
                   bytes, frames, none[chosen]);
            exit(1);
        }
    }
    out_len = LONGEST;
}

/* Measures a call that writes a verdict line, and once more with too short a line buffer. */
static void answers_line(enum call chosen, uint64_t answer)
{
    line_len = TRACE_LINE_LENGTH;
    answers(chosen, answer);
    line_len = TRACE_LINE_LENGTH - 1;
    answers(chosen, TRACE_KIND_OF_REFUSAL(TRACE_REFUSAL_LINE_TOO_SHORT));
    line_len = TRACE_LINE_LENGTH;
}

/* The text of so many words. */
static void print_words(size_t count)
{
    text_len = TRACE_TEXT_LINE_LENGTH * count;
    for (size_t n = 0; n < count; n++) {
        char digits[TRACE_TEXT_LINE_LENGTH + 1];
        snprintf(digits, sizeof digits, "%08" PRIX32 "\n", words[n]);
        memcpy(text + TRACE_TEXT_LINE_LENGTH * n, digits, TRACE_TEXT_LINE_LENGTH);
    }
}

/* The kind of the violation that an input has, with guards inferred or those of a list. */
static unsigned violation(const struct input *input, int has_list, int has_guards)
{
    if (input->ending != UNGUARDED)
        return TRACE_KIND_ACQUIRE_AFTER_COMMIT;
    if (!has_list)
        return TRACE_KIND_CANDIDATE_SET_EMPTIED;
    return has_guards ? TRACE_KIND_GUARD_NOT_HELD : TRACE_KIND_UNPROTECTED_ACCESS_AFTER_COMMIT;
}

/* The other calls on an input of so many frames. */
static void test_others(const struct input *input, size_t frames)
{
    call = SERIAL_INFERRED;
    uint64_t answer = fill(input, frames);
    unsigned number = TRACE_REPLY_REFUSAL(answer), bad = 0;
    int wrong = number == TRACE_REFUSAL_NOT_REDUCIBLE;
    if (number == TRACE_REFUSAL_OPERATION_OUT_OF_RANGE)
        bad = TRACE_KIND_OF_REFUSAL(number);
    print_words(frames);

    /* Texts: whole, without the last LF, and into a buffer that is too short. */
    answers_line(CHECK, bad ? bad : wrong ? violation(input, 0, 0) : TRACE_KIND_REDUCIBLE);
    out_len = LONGEST;
    answers(READ, frames);
    if (frames > 0) {
        out_len = frames - 1;
        answers(READ, TRACE_REPLY(TRACE_REFUSAL_WORDS_TOO_SHORT, frames));
        text_len--;
        answers_line(CHECK, TRACE_KIND_OF_REFUSAL(TRACE_REFUSAL_MALFORMED_LINE));
        answers(READ, TRACE_REPLY(TRACE_REFUSAL_MALFORMED_LINE, frames - 1));
    }

    /* Verdicts: without guards, with a guard for each variable, with a list that is refused. */
    for (size_t lines = 0; lines <= TRACE_VARIABLES; lines += TRACE_VARIABLES) {
        list_len = TRACE_TEXT_LINE_LENGTH * lines;
        answers_line(DECLARED,
                     bad ? bad : wrong ? violation(input, 1, lines > 0) : TRACE_KIND_REDUCIBLE);
    }
    list_len = TRACE_TEXT_LINE_LENGTH * (TRACE_VARIABLES + 1);
    answers_line(DECLARED, TRACE_KIND_OF_REFUSAL(TRACE_REFUSAL_VARIABLE_ALREADY_NAMED));
    sets_len = TRACE_VARIABLES;
    answers_line(INFERRED, bad ? bad : wrong ? violation(input, 0, 0) : TRACE_KIND_REDUCIBLE);
    sets_len = TRACE_VARIABLES - 1;
    answers_line(INFERRED, bad ? bad : TRACE_KIND_OF_REFUSAL(TRACE_REFUSAL_SETS_TOO_SHORT));

    /* Commits: without guards, with a guard for each variable, with a list that is refused. */
    out_len = LONGEST;
    answers(COMMITS_DECLARED, GUARDS_REFUSED);
    for (size_t lines = 0; lines <= TRACE_VARIABLES; lines += TRACE_VARIABLES) {
        list_len = TRACE_TEXT_LINE_LENGTH * lines;
        for (enum call each = COMMITS_DECLARED; each <= COMMITS_INFERRED; each++)
            if (bad)
                answers(each, answer);
            else
                answers_commits(each, frames);
    }

    /* The comparison: with the serial order, with itself, with one frame less, with none. */
    answer = bad ? answer : 1;
    if (input->ending == CLOSED || input->ending == SHORT) {
        memcpy(right, expected, frames * sizeof right[0]);
        right_len = frames;
        answers(EQUAL, answer);
    }
    memcpy(right, words, frames * sizeof right[0]);
    right_len = frames;
    answers(EQUAL, answer);
    if (frames > 0) {
        right_len = frames - 1;
        answers(EQUAL, bad ? answer : 0);
        right_len = 0;
        answers(EQUAL, bad ? answer : 0);
        right_len = frames;
        words_len = 0;
        answers(EQUAL, bad ? TRACE_REPLY(TRACE_RIGHT + number, frames - 1) : 0);
        words_len = frames;
    }

    /* Texts that are written: with room, and one byte short. */
    text_len = TRACE_TEXT_LINE_LENGTH * frames;
    answers(WRITE, bad ? answer : text_len);
    if (frames > 0) {
        text_len--;
        answers(WRITE,
                bad ? answer : TRACE_REPLY(TRACE_REFUSAL_TEXT_TOO_SHORT, text_len + 1));
    }
}

/* One frame more than a recording may have, with every call that takes one. */
static void test_too_long(void)
{
    const uint64_t refusal = TRACE_REPLY(TRACE_REFUSAL_TOO_MANY_FRAMES, LONGEST);
    const unsigned refused = TRACE_KIND_OF_REFUSAL(TRACE_REFUSAL_TOO_MANY_FRAMES);
    words_len = LONGEST + 1;
    for (size_t n = 0; n < words_len; n++)
        words[n] = TRACE_FRAME(TRACE_OPERATION_READ, 0, 0);
    print_words(words_len);
    list_len = right_len = 0;
    sets_len = TRACE_VARIABLES;
    out_len = LONGEST;
    answers_line(CHECK, refused);
    answers(READ, refusal);
    answers_line(DECLARED, refused);
    answers_line(INFERRED, refused);
    answers(EQUAL, refusal);
    for (enum call each = SERIAL_DECLARED; each <= WRITE; each++)
        answers(each, refusal);
}

/* Guard lists: sound ones, one with a variable named twice, out of range, and unfinished. */
static void test_guards(void)
{
    static const size_t lengths_of_lists[] = {0, 1, 8, 512, TRACE_VARIABLES};
    for (size_t l = 0; l < COUNT(lengths_of_lists); l++) {
        size_t lines = lengths_of_lists[l];
        list_len = TRACE_TEXT_LINE_LENGTH * lines;
        answers(GUARDS, lines);
        if (lines > 0) {
            uint8_t *last = &list[list_len - TRACE_TEXT_LINE_LENGTH], kept = *last;
            *last = 'F';
            answers(GUARDS, TRACE_REPLY(TRACE_REFUSAL_GUARD_OUT_OF_RANGE, lines - 1));
            *last = kept;
            list_len--;
            answers(GUARDS, TRACE_REPLY(TRACE_REFUSAL_MALFORMED_LINE, lines - 1));
        }
    }
    list_len = TRACE_TEXT_LINE_LENGTH * (TRACE_VARIABLES + 1);
    answers(GUARDS, GUARDS_REFUSED);
}

/* Verdict lines of each kind, written and read; too short a buffer and a line that is none. */
static void test_lines(void)
{
    const uint64_t none = TRACE_REPLY(TRACE_REFUSAL_NOT_A_VERDICT_LINE, 0);
    for (unsigned each = 0; each <= 0xFF; each++) {
        int is_kind = each <= TRACE_KIND_CANDIDATE_SET_EMPTIED || TRACE_KIND_IS_REFUSAL(each);
        kind = each;
        line_len = TRACE_LINE_LENGTH;
        answers(LINE_WRITE, is_kind ? TRACE_LINE_LENGTH : none);
        if (is_kind)
            answers(LINE_READ, 0);
        line_len--;
        answers(LINE_WRITE, TRACE_REPLY(TRACE_REFUSAL_LINE_TOO_SHORT, TRACE_LINE_LENGTH));
        answers(LINE_READ, none);
    }
    line_len = TRACE_LINE_LENGTH;
    for (size_t place = 0; place < line_len; place++) {
        uint8_t kept = line[place];
        line[place] = 'x';
        answers(LINE_READ, none);
        line[place] = kept;
    }
}

/* Measures a call that says something, or nothing where it has no words, with room and without. */
static void says(enum call chosen, int something)
{
    call = chosen;
    said_len = sizeof said;
    figure();
    uint64_t length = reply;
    said_len = 0;
    figure();
    if (length > sizeof said || (length > 0) != something || reply != length) {
        printf("c: stack of %s: said %" PRIu64 " bytes, and %" PRIu64 " where it has no room\n",
               functions[call].name, length, reply);
        exit(1);
    }
}

/* A verdict line in words: with the recording, which has a frame of each operation, and without. */
static void say_fields(unsigned each, unsigned frame, unsigned begin, unsigned commit,
                       uint64_t locks)
{
    char digits[2 * TRACE_LINE_LENGTH];
    snprintf(digits, sizeof digits, "%02X%04X1F%04X%04X%016" PRIX64 "\n", each, frame, begin,
             commit, locks);
    memcpy(line, digits, sizeof line);
    line_len = sizeof line;
    words_len = TRACE_OPERATION_END;
    says(SAY_VERDICT, 1);
    words_len = 0;
    says(SAY_VERDICT, 1);
    says(SAY_LINE, 1);
}

/* Verdict lines of each kind in words, and lines that are none. */
static void test_say_lines(void)
{
    static const unsigned places[] = {0, 5, 6, 0xFFFE, TRACE_ABSENT};
    static const uint64_t sets_of_locks[] = {0, 1, 0x8000000000000000u, 0xFFFFFFFFFFFFFFFEu,
                                             UINT64_MAX};
    for (unsigned n = 0; n < TRACE_OPERATION_END; n++)
        words[n] = TRACE_FRAME(n + 1, 31, n < 2 ? 63 : n < 4 ? 1023 : 0);
    for (unsigned each = 0; each <= 0xFF; each++)
        say_fields(each, 0xFFFF, TRACE_ABSENT, TRACE_ABSENT, 0);
    for (unsigned each = 0; each <= TRACE_KIND_CANDIDATE_SET_EMPTIED; each++) {
        for (unsigned frame = 0; frame <= TRACE_OPERATION_END; frame++)
            say_fields(each, frame, 4, frame, UINT64_MAX);
        for (size_t b = 0; b < COUNT(places); b++)
            for (size_t c = 0; c < COUNT(places); c++)
                say_fields(each, 3, places[b], places[c], 2);
        for (size_t l = 0; l < COUNT(sets_of_locks); l++)
            say_fields(each, 3, 0, 1, sets_of_locks[l]);
    }
    for (line_len = 0; line_len < TRACE_LINE_LENGTH; line_len++) {
        says(SAY_VERDICT, 1);
        says(SAY_LINE, 1);
    }
}

/* Refusals in words: each of each source, with the recording and without, and faulty lines. */
static void test_say_refusals(void)
{
    static const char faults[] = "\n\r \t0aAg\xFF";
    text_len = 0;
    for (unsigned number = 0; number <= 0xFF; number++)
        for (source = TRACE_SOURCE_RECORDING; source <= TRACE_SOURCE_TEXT + 1; source++) {
            refused = TRACE_REPLY((uint64_t)number, UINT32_MAX);
            words_len = 0;
            says(SAY_REFUSAL, number != 0);
            refused = TRACE_REPLY((uint64_t)number, (source + 1) % TRACE_OPERATION_END);
            words_len = TRACE_OPERATION_END;
            says(SAY_REFUSAL, number != 0);
        }
    source = TRACE_SOURCE_RIGHT;
    for (size_t column = 0; column < TRACE_TEXT_LINE_LENGTH; column++)
        for (size_t fault = 0; fault <= strlen(faults); fault++) {
            const size_t first = TRACE_TEXT_LINE_LENGTH * (LONGEST - 1);
            memset(text, '0', sizeof text);
            refused = TRACE_REPLY((uint64_t)TRACE_REFUSAL_MALFORMED_LINE, LONGEST - 1);
            text[first + column] = (uint8_t)faults[fault];
            text_len = first + column + (fault < strlen(faults));
            says(SAY_REFUSAL, 1);
            refused = TRACE_REPLY((uint64_t)TRACE_REFUSAL_MALFORMED_LINE, 0);
            text[column] = (uint8_t)faults[fault];
            says(SAY_REFUSAL, 1);
        }
    memcpy(text, "\xEF\xBB\xBF", 3);
    says(SAY_REFUSAL, 1);
}

/* The names of each kind and of each refusal. */
static void test_say_names(void)
{
    for (unsigned each = 0; each <= 0xFF; each++) {
        int is_refusal = each >= 1 && each <= TRACE_REFUSAL_MOVES_TOO_SHORT;
        int of_refusal = each > 0x80 && each <= 0x80 + TRACE_REFUSAL_MOVES_TOO_SHORT;
        kind = each;
        says(SAY_KIND, each <= TRACE_KIND_CANDIDATE_SET_EMPTIED || of_refusal);
        says(SAY_REFUSAL_NAME, is_refusal);
    }
}

/* Whether the headers state of a function what was measured. */
static int as_stated(enum call each)
{
    size_t stated = functions[each].stated, most = functions[each].most;
    printf("c: stack of %s: at most %zu bytes, stated %zu\n", functions[each].name, most, stated);
    if (most > stated)
        printf("c: stack of %s: above what the header states\n", functions[each].name);
    else if (stated - most > SPARE)
        printf("c: stack of %s: more than %d bytes below what the header states\n",
               functions[each].name, SPARE);
    else
        return 1;
    return 0;
}

int main(void)
{
    int good = 1;
    /* A variable's guard is the lock of the thread that accesses it; the last line repeats one. */
    for (unsigned n = 0; n <= TRACE_VARIABLES; n++) {
        char digits[TRACE_TEXT_LINE_LENGTH + 1];
        snprintf(digits, sizeof digits, "%04X%04X\n", n % TRACE_VARIABLES, n % TRACE_THREADS);
        memcpy(list + TRACE_TEXT_LINE_LENGTH * n, digits, TRACE_TEXT_LINE_LENGTH);
    }
    for (size_t r = 0; r < COUNT(requests); r++)
        good = test(&requests[r]) && good;

    test_others(&inputs[0], 0);
    for (size_t i = 0; i < COUNT(inputs); i++)
        for (size_t l = 0; l < COUNT(lengths); l++)
            test_others(&inputs[i], lengths[l]);
    test_too_long();
    test_guards();
    test_lines();
    test_say_lines();
    test_say_refusals();
    test_say_names();
    for (enum call each = 0; each < CALLS; each++)
        good = as_stated(each) && good;
    printf("c: stack of %d calls\n", measured);
    return good ? 0 : 1;
}
