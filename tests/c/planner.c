/*
 * Calls the library from C. Every buffer is allocated at its exact size, so that a memory
 * checker finds any access outside. Expected lines are those of docs/FORMAT.md, sentences those of
 * docs/TOOL.md.
 */
#include "trace_library.h"

#include <stdio.h>
#include <stdlib.h>
#include <string.h>

#define UNTOUCHED 0x5A
#define CHECK(condition) check((condition), #condition, __LINE__)
#define COUNT(array) (sizeof(array) / sizeof(array)[0])

static int checks, failures;

static void check(int holds, const char *condition, int source_line)
{
    checks++;
    if (!holds) {
        failures++;
        printf("c: line %d failed: %s\n", source_line, condition);
    }
}

static void *allocate(size_t size)
{
    void *memory = malloc(size);
    if (memory == NULL) {
        printf("c: no memory\n");
        exit(1);
    }
    return memory;
}

/* A copy of exact size; size may be 0. */
static void *copy_of(const void *from, size_t size)
{
    void *memory = allocate(size);
    if (size > 0)
        memcpy(memory, from, size);
    return memory;
}

static void *untouched(size_t size)
{
    void *memory = allocate(size);
    if (size > 0)
        memset(memory, UNTOUCHED, size);
    return memory;
}

static int is_untouched(const void *memory, size_t size)
{
    const uint8_t *bytes = memory;
    for (size_t place = 0; place < size; place++)
        if (bytes[place] != UNTOUCHED)
            return 0;
    return 1;
}

/* The line holds these 32 digits and LF, the rest is untouched. */
static int holds_line(const uint8_t *line, size_t line_len, const char *digits)
{
    const size_t last = TRACE_LINE_LENGTH - 1;
    return line_len > last && memcmp(line, digits, last) == 0 && line[last] == '\n' &&
           is_untouched(line + TRACE_LINE_LENGTH, line_len - TRACE_LINE_LENGTH);
}

static unsigned kind_of(const char *digits)
{
    unsigned kind = 0xFFF;
    sscanf(digits, "%2X", &kind);
    return kind;
}

/* No digits: refusal 17 is expected. */
static int answers(unsigned kind, const uint8_t *line, size_t line_len, const char *digits)
{
    if (digits == NULL)
        return kind == TRACE_KIND_OF_REFUSAL(TRACE_REFUSAL_LINE_TOO_SHORT) &&
               is_untouched(line, line_len);
    return kind == kind_of(digits) && holds_line(line, line_len, digits);
}

static int checks_to(const char *text, size_t line_len, const char *digits)
{
    size_t text_len = strlen(text);
    uint8_t *lent_text = copy_of(text, text_len);
    uint8_t *line = untouched(line_len);
    unsigned kind = trace_check(lent_text, text_len, line, line_len);
    int good = answers(kind, line, line_len, digits) && memcmp(lent_text, text, text_len) == 0;
    free(line);
    free(lent_text);
    return good;
}

/* On success expected holds the words; otherwise all words stay untouched. */
static int reads_to(const char *text, size_t words_len, uint64_t reply, const uint32_t *expected)
{
    size_t text_len = strlen(text);
    size_t written = TRACE_REPLY_IS_REFUSAL(reply) ? 0 : TRACE_REPLY_COUNT(reply);
    uint8_t *lent_text = copy_of(text, text_len);
    uint32_t *words = untouched(words_len * sizeof *words);
    int good = trace_read(lent_text, text_len, words, words_len) == reply;
    if (written > 0)
        good = good && memcmp(words, expected, written * sizeof *words) == 0;
    good = good && is_untouched(words + written, (words_len - written) * sizeof *words);
    free(words);
    free(lent_text);
    return good;
}

static int guards_to(const char *list, uint64_t reply)
{
    size_t list_len = strlen(list);
    uint8_t *lent_list = copy_of(list, list_len);
    int good = trace_guards(lent_list, list_len) == reply;
    free(lent_list);
    return good;
}

static int declares_to(const char *list, const uint32_t *words, size_t words_len, size_t line_len,
                       const char *digits)
{
    size_t list_len = strlen(list);
    uint8_t *lent_list = copy_of(list, list_len);
    uint32_t *lent_words = copy_of(words, words_len * sizeof *words);
    uint8_t *line = untouched(line_len);
    unsigned kind = trace_declared(lent_list, list_len, lent_words, words_len, line, line_len);
    int good = answers(kind, line, line_len, digits);
    free(line);
    free(lent_words);
    free(lent_list);
    return good;
}

/* With a verdict, sets are all locks but for the variable given; otherwise untouched. */
static int infers_to(const uint32_t *words, size_t words_len, size_t sets_len, size_t line_len,
                     const char *digits, size_t variable, uint64_t set)
{
    uint32_t *lent_words = copy_of(words, words_len * sizeof *words);
    uint64_t *sets = untouched(sets_len * sizeof *sets);
    uint8_t *line = untouched(line_len);
    unsigned kind = trace_inferred(lent_words, words_len, sets, sets_len, line, line_len);
    int good = answers(kind, line, line_len, digits);
    int verdict = digits != NULL && !TRACE_KIND_IS_REFUSAL(kind_of(digits));
    size_t written = verdict ? TRACE_VARIABLES : 0;
    for (size_t place = 0; place < written; place++)
        good = good && sets[place] == (place == variable ? set : UINT64_MAX);
    good = good && is_untouched(sets + written, (sets_len - written) * sizeof *sets);
    free(line);
    free(sets);
    free(lent_words);
    return good;
}

/* 1 equal, 0 not, or a refusal. */
static int equals_to(const uint32_t *left, size_t left_len, const uint32_t *right,
                     size_t right_len, uint64_t reply)
{
    uint32_t *lent_left = copy_of(left, left_len * sizeof *left);
    uint32_t *lent_right = copy_of(right, right_len * sizeof *right);
    int good = trace_equal(lent_left, left_len, lent_right, right_len) == reply &&
               memcmp(lent_left, left, left_len * sizeof *left) == 0 &&
               memcmp(lent_right, right, right_len * sizeof *right) == 0;
    free(lent_right);
    free(lent_left);
    return good;
}

/*
 * The serial order or, if displaced, the displacements; no list: guards are inferred. On success
 * expected holds the words or the numbers; otherwise all of them stay untouched.
 */
static int orders_or_moves_to(int displaced, const char *list, const uint32_t *words,
                              size_t words_len, size_t out_len, uint64_t reply,
                              const void *expected)
{
    size_t list_len = list == NULL ? 0 : strlen(list);
    size_t written = TRACE_REPLY_IS_REFUSAL(reply) ? 0 : TRACE_REPLY_COUNT(reply);
    uint8_t *lent_list = copy_of(list, list_len);
    uint32_t *lent_words = copy_of(words, words_len * sizeof *words);
    void *out = untouched(out_len * sizeof(uint32_t));
    uint64_t given;
    if (displaced)
        given = list == NULL ? trace_moves_inferred(lent_words, words_len, out, out_len)
                             : trace_moves_declared(lent_list, list_len, lent_words, words_len,
                                                    out, out_len);
    else
        given = list == NULL ? trace_serial_inferred(lent_words, words_len, out, out_len)
                             : trace_serial_declared(lent_list, list_len, lent_words, words_len,
                                                     out, out_len);
    int good = given == reply && memcmp(lent_words, words, words_len * sizeof *words) == 0;
    if (written > 0)
        good = good && memcmp(out, expected, written * sizeof(uint32_t)) == 0;
    good = good && is_untouched((uint32_t *)out + written, (out_len - written) * sizeof(uint32_t));
    free(out);
    free(lent_words);
    free(lent_list);
    return good;
}

static int orders_to(const char *list, const uint32_t *words, size_t words_len, size_t out_len,
                     uint64_t reply, const uint32_t *expected)
{
    return orders_or_moves_to(0, list, words, words_len, out_len, reply, expected);
}

static int moves_to(const char *list, const uint32_t *words, size_t words_len, size_t moves_len,
                    uint64_t reply, const int32_t *expected)
{
    return orders_or_moves_to(1, list, words, words_len, moves_len, reply, expected);
}

/* On success the text is written from place on; bytes outside, or all of them, stay untouched. */
static int writes_to(const uint32_t *words, size_t words_len, size_t text_len, size_t place,
                     uint64_t reply, const char *expected)
{
    size_t written = TRACE_REPLY_IS_REFUSAL(reply) ? 0 : TRACE_REPLY_COUNT(reply);
    uint32_t *lent_words = copy_of(words, words_len * sizeof *words);
    uint8_t *text = untouched(text_len);
    uint64_t given = trace_write(lent_words, words_len, text, text_len, place);
    int good = given == reply;
    if (words_len > 0)
        good = good && memcmp(lent_words, words, words_len * sizeof *words) == 0;
    if (written == 0)
        good = good && is_untouched(text, text_len);
    else
        good = good && is_untouched(text, place) && memcmp(text + place, expected, written) == 0 &&
               is_untouched(text + place + written, text_len - place - written);
    free(text);
    free(lent_words);
    return good;
}

struct fields {
    uint8_t kind;
    uint16_t frame;
    uint8_t thread;
    uint16_t begin, commit;
    uint64_t locks;
};

/* No fields: refusal 18 is expected, and the numbers stay untouched. */
static int line_reads_to(const char *line, size_t line_len, const struct fields *fields)
{
    uint8_t *lent_line = copy_of(line, line_len);
    uint8_t *kind = untouched(sizeof *kind), *thread = untouched(sizeof *thread);
    uint16_t *frame = untouched(sizeof *frame), *begin = untouched(sizeof *begin);
    uint16_t *commit = untouched(sizeof *commit);
    uint64_t *locks = untouched(sizeof *locks);
    uint64_t reply =
        trace_line_read(lent_line, line_len, kind, frame, thread, begin, commit, locks);
    int good;
    if (fields == NULL)
        good = reply == TRACE_REPLY(TRACE_REFUSAL_NOT_A_VERDICT_LINE, 0) &&
               is_untouched(kind, sizeof *kind) &&
               is_untouched(frame, sizeof *frame) && is_untouched(thread, sizeof *thread) &&
               is_untouched(begin, sizeof *begin) && is_untouched(commit, sizeof *commit) &&
               is_untouched(locks, sizeof *locks);
    else
        good = reply == 0 && *kind == fields->kind && *frame == fields->frame &&
               *thread == fields->thread && *begin == fields->begin &&
               *commit == fields->commit && *locks == fields->locks;
    if (line_len > 0)
        good = good && memcmp(lent_line, line, line_len) == 0;
    free(locks);
    free(commit);
    free(begin);
    free(frame);
    free(thread);
    free(kind);
    free(lent_line);
    return good;
}

/* No digits: this refusal is expected, and the line stays untouched. */
static int line_writes_to(struct fields fields, size_t line_len, uint64_t reply,
                          const char *digits)
{
    uint8_t *line = untouched(line_len);
    uint64_t given = trace_line_write(fields.kind, fields.frame, fields.thread, fields.begin,
                                      fields.commit, fields.locks, line, line_len);
    int good = given == reply;
    if (digits == NULL)
        good = good && is_untouched(line, line_len);
    else
        good = good && holds_line(line, line_len, digits);
    free(line);
    return good;
}

/*
 * Where units commit; no list: guards are inferred. expected holds what is written at each frame's
 * place, 0 where the entry stays untouched; no expected: all of them stay so.
 */
static int commits_to(const char *list, const uint32_t *words, size_t words_len,
                      size_t commits_len, uint64_t reply, const uint32_t *expected)
{
    size_t list_len = list == NULL ? 0 : strlen(list);
    uint8_t *lent_list = copy_of(list, list_len);
    uint32_t *lent_words = copy_of(words, words_len * sizeof *words);
    uint32_t *commits = untouched(commits_len * sizeof *commits);
    uint64_t given = list == NULL
                         ? trace_commits_inferred(lent_words, words_len, commits, commits_len)
                         : trace_commits_declared(lent_list, list_len, lent_words, words_len,
                                                  commits, commits_len);
    int good = given == reply && memcmp(lent_words, words, words_len * sizeof *words) == 0;
    for (size_t place = 0; place < commits_len; place++) {
        uint32_t commit = expected != NULL && place < words_len ? expected[place] : 0;
        good = good && (commit == 0 ? is_untouched(&commits[place], sizeof *commits)
                                    : commits[place] == commit);
    }
    free(commits);
    free(lent_words);
    free(lent_list);
    return good;
}

/* What is to be said: a verdict line, with its words or without, a refusal, or a name. */
struct saying {
    enum { VERDICT, LINE_ALONE, REFUSAL, KIND_NAME, REFUSAL_NAME } what;
    const char *line, *text;
    const uint32_t *words;
    size_t words_len;
    uint64_t reply;
    uint32_t source;
    uint8_t number;
};

static size_t say(const struct saying *saying, uint8_t *out, size_t out_len)
{
    size_t line_len = saying->line == NULL ? 0 : strlen(saying->line);
    size_t text_len = saying->text == NULL ? 0 : strlen(saying->text);
    uint8_t *line = copy_of(saying->line, line_len), *text = copy_of(saying->text, text_len);
    size_t words_size = saying->words_len * sizeof *saying->words, length = 0;
    uint32_t *words = copy_of(saying->words, words_size);
    switch (saying->what) {
    case VERDICT:
        length = trace_say_verdict(line, line_len, words, saying->words_len, out, out_len);
        break;
    case LINE_ALONE:
        length = trace_say_line(line, line_len, out, out_len);
        break;
    case REFUSAL:
        length = trace_say_refusal(saying->reply, saying->source, text, text_len, words,
                                   saying->words_len, out, out_len);
        break;
    case KIND_NAME:
        length = trace_say_kind(saying->number, out, out_len);
        break;
    case REFUSAL_NAME:
        length = trace_say_refusal_name(saying->number, out, out_len);
        break;
    }
    if (line_len > 0)
        CHECK(memcmp(line, saying->line, line_len) == 0);
    if (text_len > 0)
        CHECK(memcmp(text, saying->text, text_len) == 0);
    if (words_size > 0)
        CHECK(memcmp(words, saying->words, words_size) == 0);
    free(words);
    free(text);
    free(line);
    return length;
}

/* With room to spare, with that of the whole, with one byte less, half, one byte and none. */
static int says(struct saying saying, const char *expected)
{
    size_t whole = strlen(expected);
    const size_t rooms[] = {whole + 7, whole, whole - 1, whole / 2, 1, 0};
    int good = 1;
    for (size_t n = 0; n < COUNT(rooms); n++) {
        size_t room = whole == 0 && n == 2 ? 3 : rooms[n], written = room < whole ? room : whole;
        uint8_t *out = untouched(room);
        good = good && say(&saying, out, room) == whole;
        good = good && (written == 0 || memcmp(out, expected, written) == 0) &&
               is_untouched(out + written, room - written);
        free(out);
    }
    return good;
}

static const char reducible_0[] = "00000000FFFFFFFF0000000000000000";
static const char text_a[] = "05010000\n01010000\n03010000\n02010000\n"
                             "01010000\n03010001\n02010000\n06010000\n";
static const char line_a[] = "03000401000000030000000000000001";
static const uint32_t words_a[] = {0x05010000, 0x01010000, 0x03010000, 0x02010000,
                                   0x01010000, 0x03010001, 0x02010000, 0x06010000};
static const uint32_t words_e[] = {0x05000000, 0x03000005, 0x03000005};
static const uint32_t words_j[] = {0x01000003, 0x01010003};
static const uint32_t access_5[] = {0x03000005};
static const uint32_t words_c[] = {0x05000000, 0x05010000, 0x01000000, 0x04000000, 0x02000000,
                                   0x01010000, 0x04010000, 0x06000000, 0x02010000, 0x06010000};
static const uint32_t serial_c[] = {0x05000000, 0x01000000, 0x04000000, 0x02000000, 0x06000000,
                                    0x05010000, 0x01010000, 0x04010000, 0x02010000, 0x06010000};
static const int32_t moves_c[] = {0, 4, -1, -1, -1, 1, 1, -3, 0, 0};
static const uint32_t words_h[] = {0x03000000, 0x03010001};
static const uint32_t reverse_h[] = {0x03010001, 0x03000000};
static const uint32_t words_i[] = {0x03000000, 0x03010000};
static const uint32_t reverse_i[] = {0x03010000, 0x03000000};
/* Each row of O is a recording and the one that it is compared with. */
static const uint32_t words_o[][2][3] = {
    {{0x03000000, 0x03010000, 0x04020000}, {0x03010000, 0x03000000, 0x04020000}},
    {{0x03000000, 0x03010000, 0x04020000}, {0x03000000, 0x04020000, 0x03010000}},
    {{0x03000000, 0x03010000, 0x04020000}, {0x03010000, 0x04020000, 0x03000000}},
    {{0x03000000, 0x04010000}, {0x04010000, 0x03000000}},
    {{0x04000000, 0x04010000}, {0x04010000, 0x04000000}},
    {{0x03000000, 0x03000001}, {0x03000001, 0x03000000}},
};
static const size_t length_o[] = {3, 3, 3, 2, 2, 2};
static const uint64_t reply_o[] = {1, 0, 0, 0, 0, 0};
static const uint32_t begin_alone[] = {0x05000000};
/* Variable 5 under locks {1,2}, then {2,3}, then {3}. */
static const uint32_t words_shared[] = {0x01000001, 0x01000002, 0x03000005, 0x02000001,
                                        0x01000003, 0x04000005, 0x02000002, 0x03000005};

static const uint32_t two_frames[] = {0x05000000, 0x06000000};
static const struct fields fields_a = {3, 4, 1, 0, 3, 1};

/* Texts that are written. */
static void test_write(void)
{
    const char *two_lines = "05000000\n06000000\n";
    CHECK(writes_to(two_frames, 2, 21, 3, 18, two_lines));
    CHECK(writes_to(two_frames, 2, 21, 4, TRACE_REPLY(TRACE_REFUSAL_TEXT_TOO_SHORT, 18), NULL));
    CHECK(writes_to(two_frames, 2, 20, 3, TRACE_REPLY(TRACE_REFUSAL_TEXT_TOO_SHORT, 18), NULL));
    CHECK(writes_to(two_frames, 0, 5, 5, 0, NULL));
    CHECK(writes_to(two_frames, 0, 5, 6, TRACE_REPLY(TRACE_REFUSAL_TEXT_TOO_SHORT, 0), NULL));
    CHECK(writes_to(two_frames, 0, 0, 0, 0, NULL));
    CHECK(writes_to(two_frames, 0, 0, 1, TRACE_REPLY(TRACE_REFUSAL_TEXT_TOO_SHORT, 0), NULL));
    CHECK(writes_to(two_frames, 0, 0, SIZE_MAX, TRACE_REPLY(TRACE_REFUSAL_TEXT_TOO_SHORT, 0),
                    NULL));
    CHECK(writes_to(two_frames, 2, 18, 0, 18, two_lines));
    CHECK(writes_to(two_frames, 2, 17, 0, TRACE_REPLY(TRACE_REFUSAL_TEXT_TOO_SHORT, 18), NULL));
    CHECK(writes_to(two_frames, 2, 30, 5, 18, two_lines));
    CHECK(writes_to(two_frames, 2, 30, SIZE_MAX, TRACE_REPLY(TRACE_REFUSAL_TEXT_TOO_SHORT, 18),
                    NULL));
    CHECK(writes_to(two_frames, 2, 30, SIZE_MAX - 8, TRACE_REPLY(TRACE_REFUSAL_TEXT_TOO_SHORT, 18),
                    NULL));
    CHECK(writes_to(two_frames, 2, 30, SIZE_MAX - 17, TRACE_REPLY(TRACE_REFUSAL_TEXT_TOO_SHORT, 18),
                    NULL));
    CHECK(writes_to(two_frames, 2, 30, SIZE_MAX / 2 + 1,
                    TRACE_REPLY(TRACE_REFUSAL_TEXT_TOO_SHORT, 18), NULL));
    CHECK(writes_to(words_a, COUNT(words_a), 72, 0, 72, text_a));
    CHECK(writes_to(begin_alone, 1, 9, 0, 9, "05000000\n"));
    CHECK(writes_to(words_j, COUNT(words_j), 18, 0,
                    TRACE_REPLY(TRACE_REFUSAL_LOCK_HELD_BY_OTHER, 1), NULL));
    CHECK(writes_to(words_j, COUNT(words_j), 0, SIZE_MAX,
                    TRACE_REPLY(TRACE_REFUSAL_LOCK_HELD_BY_OTHER, 1), NULL));
}

/* Verdict lines that are read and written. */
static void test_lines(void)
{
    const char *greatest = "FFFFFFFFFFFFFFFFFFFFFFFFFFFFFFFF\n";
    const struct fields all_bits = {0xFF, 0xFFFF, 0xFF, 0xFFFF, 0xFFFF, UINT64_MAX};
    const struct fields with_lock = {0, 0, 0xFF, 0xFFFE, 0, 2};
    const uint64_t none = TRACE_REPLY(TRACE_REFUSAL_NOT_A_VERDICT_LINE, 0);
    CHECK(line_reads_to("03000401000000030000000000000001\n", TRACE_LINE_LENGTH, &fields_a));
    CHECK(line_writes_to(fields_a, TRACE_LINE_LENGTH, TRACE_LINE_LENGTH, line_a));
    CHECK(line_reads_to(greatest, TRACE_LINE_LENGTH, &all_bits));
    CHECK(line_writes_to(all_bits, TRACE_LINE_LENGTH + 1, TRACE_LINE_LENGTH, greatest));
    CHECK(line_reads_to("000000FFFFFE00000000000000000002\n", TRACE_LINE_LENGTH, &with_lock));
    CHECK(line_writes_to(with_lock, TRACE_LINE_LENGTH, TRACE_LINE_LENGTH,
                         "000000FFFFFE00000000000000000002"));
    CHECK(line_reads_to("03000401000000030000000000000001\n", TRACE_LINE_LENGTH - 1, NULL));
    CHECK(line_reads_to("03000401000000030000000000000001\n\n", TRACE_LINE_LENGTH + 1, NULL));
    CHECK(line_reads_to("", 0, NULL));
    CHECK(line_reads_to("0300040100000003000000000000000a\n", TRACE_LINE_LENGTH, NULL));
    CHECK(line_reads_to("03000401000000030000000000000001\r", TRACE_LINE_LENGTH, NULL));
    CHECK(line_reads_to("0300040100000003\n000000000000001\n", TRACE_LINE_LENGTH, NULL));
    CHECK(line_writes_to(fields_a, TRACE_LINE_LENGTH - 1,
                         TRACE_REPLY(TRACE_REFUSAL_LINE_TOO_SHORT, TRACE_LINE_LENGTH), NULL));
    CHECK(line_writes_to(fields_a, 0, TRACE_REPLY(TRACE_REFUSAL_LINE_TOO_SHORT, TRACE_LINE_LENGTH),
                         NULL));
    for (unsigned kind = 0; kind <= 0xFF; kind++) {
        int fits = kind <= 0x04 || kind >= 0x81;
        const struct fields fields = {(uint8_t)kind, 65535, 255, 65535, 65534, 0};
        char line[TRACE_LINE_LENGTH + 1];
        snprintf(line, sizeof line, "%02XFFFFFFFFFFFFFE0000000000000000\n", kind);
        CHECK(line_reads_to(line, TRACE_LINE_LENGTH, fits ? &fields : NULL));
        CHECK(line_writes_to(fields, TRACE_LINE_LENGTH, fits ? TRACE_LINE_LENGTH : none,
                             fits ? line : NULL));
        CHECK(line_writes_to(fields, TRACE_LINE_LENGTH - 1,
                             TRACE_REPLY(TRACE_REFUSAL_LINE_TOO_SHORT, TRACE_LINE_LENGTH), NULL));
    }
}

/* A lock that its holder takes again: the release that frees it commits. */
static const uint32_t words_again[] = {0x05000000, 0x01000000, 0x03000005, 0x01000000, 0x02000000,
                                       0x05010000, 0x06010000, 0x02000000, 0x06000000};
static const uint32_t serial_again[] = {0x05010000, 0x06010000, 0x05000000, 0x01000000, 0x03000005,
                                        0x01000000, 0x02000000, 0x02000000, 0x06000000};
/* Taken again after the commit, and then a free lock. */
static const uint32_t words_after[] = {0x05000000, 0x01000000, 0x01000001, 0x02000000,
                                       0x01000001, 0x02000001, 0x02000001, 0x01000001};
/* Held before the block, taken and let go inside it, and then a free lock; thread 1's block. */
static const uint32_t words_before[] = {0x01000000, 0x05000000, 0x01000000, 0x02000000, 0x01000001,
                                        0x05010000, 0x06010000, 0x02000001, 0x06000000};
static const uint32_t serial_before[] = {0x01000000, 0x05010000, 0x06010000, 0x05000000, 0x01000000,
                                         0x02000000, 0x01000001, 0x02000001, 0x06000000};
/* Variable 5 under lock 1 held twice, under it held once, and under no lock. */
static const uint32_t words_held[] = {0x01000001, 0x01000001, 0x03000005, 0x02000001,
                                      0x03000005, 0x02000001, 0x03000005};
static const uint32_t words_other[] = {0x01000003, 0x01000003, 0x01010003};
static const uint32_t words_other_early[] = {0x01000003, 0x01000003, 0x02000003, 0x01010003};
static const uint32_t words_other_late[] = {0x01000003, 0x01000003, 0x02000003, 0x02000003,
                                            0x01010003};

static const int32_t moves_again[] = {2, 2, 2, 2, 2, -5, -5, 0, 0};

static void test_again(void)
{
    CHECK(infers_to(words_again, 9, TRACE_VARIABLES, TRACE_LINE_LENGTH,
                    "00000900FFFFFFFF0000000000000000", 5, 1));
    CHECK(declares_to("00050000\n", words_again, 9, TRACE_LINE_LENGTH,
                      "00000900FFFFFFFF0000000000000000"));
    CHECK(orders_to(NULL, words_again, 9, 9, 9, serial_again));
    CHECK(orders_to("00050000\n", words_again, 9, 9, 9, serial_again));
    CHECK(moves_to(NULL, words_again, 9, 9, 9, moves_again));
    CHECK(moves_to("00050000\n", words_again, 9, 10, 9, moves_again));
    CHECK(equals_to(words_again, 9, serial_again, 9, 1));
    CHECK(infers_to(words_after, 7, TRACE_VARIABLES, TRACE_LINE_LENGTH,
                    "00000700FFFFFFFF0000000000000000", 0, UINT64_MAX));
    CHECK(infers_to(words_after, 8, TRACE_VARIABLES, TRACE_LINE_LENGTH,
                    "03000700000000030000000000000002", 0, UINT64_MAX));
    CHECK(orders_to(NULL, words_after, 8, 8, TRACE_REPLY(TRACE_REFUSAL_NOT_REDUCIBLE, 7), NULL));
    CHECK(declares_to("", words_before, 9, TRACE_LINE_LENGTH, "00000900FFFFFFFF0000000000000000"));
    CHECK(orders_to("", words_before, 9, 9, 9, serial_before));
    CHECK(orders_to(NULL, words_before, 9, 9, 9, serial_before));
    CHECK(infers_to(words_held, 5, TRACE_VARIABLES, TRACE_LINE_LENGTH,
                    "00000500FFFFFFFF0000000000000000", 5, 2));
    CHECK(infers_to(words_held, 7, TRACE_VARIABLES, TRACE_LINE_LENGTH,
                    "04000600FFFFFFFF0000000000000002", 5, 2));
    CHECK(declares_to("00050001\n", words_held, 7, TRACE_LINE_LENGTH,
                      "01000600FFFFFFFF0000000000000002"));
    CHECK(declares_to("", words_other, 2, TRACE_LINE_LENGTH, "00000200FFFFFFFF0000000000000000"));
    CHECK(declares_to("", words_other, 3, TRACE_LINE_LENGTH, "87000200FFFFFFFF0000000000000000"));
    CHECK(declares_to("", words_other_early, 4, TRACE_LINE_LENGTH,
                      "87000300FFFFFFFF0000000000000000"));
    CHECK(declares_to("", words_other_late, 5, TRACE_LINE_LENGTH,
                      "00000500FFFFFFFF0000000000000000"));
}

/* Where units commit: blocks, single frames, open blocks, violations; room for some of them. */
static void test_commits(void)
{
    const uint32_t commits_c[] = {5, 9, 0, 0, 0, 0, 0, 0, 0, 0};
    const uint32_t unguarded_c[] = {4, 7, 0, 0, 0, 0, 0, 0, 0, 0};
    const uint32_t commits_a[] = {4, 0, 0, 0, 0, 0, 0, 0};
    const uint32_t commits_again[] = {8, 0, 0, 0, 0, 7, 0, 0, 0};
    const uint32_t each[] = {1, 2, 3, 4, 5, 6, 7, 8};
    const uint32_t open[] = {0x05000000, 0x05000000, 0x01000000, 0x02000000, 0x06000000};
    const uint32_t commits_open[] = {4, 0, 0, 0, 0};
    CHECK(commits_to(NULL, words_c, 10, 10, 10, commits_c));
    CHECK(commits_to(NULL, words_c, 10, 13, 10, commits_c));
    CHECK(commits_to(NULL, words_c, 10, 1, 10, commits_c));
    CHECK(commits_to(NULL, words_c, 10, 0, 10, NULL));
    CHECK(commits_to("00000000\n", words_c, 10, 10, 10, commits_c));
    CHECK(commits_to("00000000\n", words_c, 10, 1, 10, commits_c));
    CHECK(commits_to("", words_c, 10, 10, 10, unguarded_c));
    CHECK(commits_to(NULL, words_a, COUNT(words_a), 8, 8, commits_a));
    CHECK(commits_to("00000000\n00010000\n", words_a, COUNT(words_a), 9, 8, commits_a));
    CHECK(commits_to(NULL, words_again, 9, 9, 9, commits_again));
    CHECK(commits_to("00050000\n", words_again, 9, 9, 9, commits_again));
    CHECK(commits_to(NULL, words_shared, 8, 8, 8, each));
    CHECK(commits_to("", words_shared, 8, 8, 8, each));
    CHECK(commits_to(NULL, begin_alone, 1, 1, 1, NULL));
    CHECK(commits_to("", begin_alone, 1, 1, 1, NULL));
    CHECK(commits_to(NULL, open, 3, 3, 3, NULL));
    CHECK(commits_to(NULL, open, 4, 4, 4, commits_open));
    CHECK(commits_to("", open, 5, 5, 5, commits_open));
    CHECK(commits_to(NULL, words_c, 0, 0, 0, NULL));
    CHECK(commits_to("", words_c, 0, 2, 0, NULL));
    CHECK(commits_to("00000000", words_c, 10, 10, TRACE_REPLY(TRACE_REFUSAL_MALFORMED_LINE, 0),
                     NULL));
    CHECK(commits_to("04000000\n", words_j, 2, 2, TRACE_REPLY(TRACE_REFUSAL_GUARD_OUT_OF_RANGE, 0),
                     NULL));
    CHECK(commits_to("00050002\n00050002\n", words_j, 2, 2,
                     TRACE_REPLY(TRACE_REFUSAL_VARIABLE_ALREADY_NAMED, 1), NULL));
    CHECK(commits_to("", words_j, 2, 2, TRACE_REPLY(TRACE_REFUSAL_LOCK_HELD_BY_OTHER, 1), NULL));
    CHECK(commits_to(NULL, words_j, 2, 0, TRACE_REPLY(TRACE_REFUSAL_LOCK_HELD_BY_OTHER, 1), NULL));
}

/* Verdicts in words, as docs/TOOL.md has them: with the recording's words, and the line alone. */
static void test_say_verdicts(void)
{
    const char *no_line = "refused: number 18, this is no verdict line: that has 32 digits "
                          "0-9 A-F, the first two 00 to 04 or 81 to FF, and one LF; hand it on as "
                          "it was written.\n";
    const char *a_line = "03000401000000030000000000000001\n";
    const char *a_alone =
        "violation: kind 3, acquire after commit, by thread 1.\n"
        "  The block begins at line 1 [0].\n"
        "  It commits at line 4 [3].\n"
        "  It goes wrong at line 5 [4].\n"
        "  A block takes no new lock after its commit, here lock 0: between these lines another "
        "thread may change what the block has read or written.\n"
        "  To mend it, take the lock before the commit and hold each lock until the block ends, or "
        "end the block before this line.\n";
    CHECK(says((struct saying){VERDICT, .line = a_line, .words = words_a, .words_len = 8},
               "violation: kind 3, acquire after commit, by thread 1.\n"
               "  The block begins at line 1 [0].\n"
               "  It commits at line 4 [3]: release of lock 0.\n"
               "  It goes wrong at line 5 [4]: acquire of lock 0.\n"
               "  A block takes no new lock after its commit: between these lines another thread "
               "may change what the block has read or written.\n"
               "  To mend it, take the lock before the commit and hold each lock until the block "
               "ends, or end the block before this line.\n"));
    CHECK(says((struct saying){VERDICT, .line = a_line}, a_alone));
    CHECK(says((struct saying){LINE_ALONE, .line = a_line}, a_alone));
    CHECK(says((struct saying){VERDICT, .line = "01000000FFFFFFFF0000000000000004\n",
                               .words = access_5, .words_len = 1},
               "violation: kind 1, guard not held, by thread 0.\n"
               "  The thread is in no block.\n"
               "  It goes wrong at line 1 [0]: read of variable 5.\n"
               "  The guard of variable 5 is lock 2, and thread 0 does not hold it: another thread "
               "may access the variable at the same time.\n"
               "  To mend it, hold lock 2 at this line; in a block, take it before the commit.\n"));
    CHECK(says((struct saying){VERDICT, .line = "02000200000000010000000000000000\n",
                               .words = words_e, .words_len = 3},
               "violation: kind 2, unprotected access after commit, by thread 0.\n"
               "  The block begins at line 1 [0].\n"
               "  It commits at line 2 [1]: read of variable 5.\n"
               "  It goes wrong at line 3 [2]: read of variable 5.\n"
               "  Variable 5 has no guard: another thread may change it, or what the block "
               "accessed before, between these lines.\n"
               "  To mend it, end the block before this line, or name a guard of the variable and "
               "hold it at each access.\n"));
    CHECK(says((struct saying){LINE_ALONE, .line = "0400050300020003800000000000000C\n"},
               "violation: kind 4, candidate set emptied, by thread 3.\n"
               "  The block begins at line 3 [2].\n"
               "  It commits at line 4 [3].\n"
               "  It goes wrong at line 6 [5].\n"
               "  Locks left that may guard the variable: 2, 3, 63. Thread 3 holds none of them, "
               "so no one lock guards every access of the variable.\n"
               "  To mend it, hold one lock at every access of the variable.\n"));
    CHECK(says((struct saying){VERDICT, .line = "00000A00FFFFFFFF0000000000000000\n",
                               .words = words_c, .words_len = 10},
               "reducible: no frame goes wrong; frames: 10.\n"));
    CHECK(says((struct saying){LINE_ALONE, .line = "00000000FFFFFFFF0000000000000000\n"},
               "reducible: there is nothing in the recording; frames: 0.\n"));
    CHECK(says((struct saying){VERDICT, .line = "87000100FFFFFFFF0000000000000000\n",
                               .words = words_j, .words_len = 2},
               "refused: number 7, line 2 [1] of the recording, acquire of lock 3 by thread 1, "
               "takes a lock that another thread holds; it has to be released before this "
               "line.\n"));
    CHECK(says((struct saying){LINE_ALONE, .line = "87000100FFFFFFFF0000000000000000\n"},
               "refused: number 7, line 2 [1] of the recording takes a lock that another thread "
               "holds; it has to be released before this line.\n"));
    CHECK(says((struct saying){LINE_ALONE, .line = "8B000100FFFFFFFF0000000000000000\n"},
               "refused: number 11, line 2 [1] of the guard list names a variable above 03FF or a "
               "lock above 003F; mend the number.\n"));
    CHECK(says((struct saying){LINE_ALONE, .line = "FF000100FFFFFFFF0000000000000000\n"},
               "refused: number 127, which this check does not give; its place is 1.\n"));
    CHECK(says((struct saying){LINE_ALONE, .line = "05000401000000030000000000000001\n"}, no_line));
    CHECK(says((struct saying){LINE_ALONE, .line = line_a}, no_line));
    CHECK(says((struct saying){LINE_ALONE, .line = NULL}, no_line));
    CHECK(says((struct saying){VERDICT, .line = line_a, .words = words_a, .words_len = 8},
               no_line));
}

/* Refusals in words. SOURCE is the recording, of 11 and 12 the guard list; the place is 4. */
static void test_say_refusals(void)
{
    static const char *said[] = {
        "",
        "line 5 [4] of the recording is not eight digits 0-9 A-F and one LF; write it so, without "
        "blanks, lower case or CR, and end the last line.",
        "the recording has more than 4 lines; cut it down to 4.",
        "the word buffer has fewer than 4 words; lend one for each line.",
        "line 5 [4] of the recording has an operation other than 01 to 06; mend its digits 1 and "
        "2.",
        "line 5 [4] of the recording has a thread above 1F; mend its digits 3 and 4.",
        "line 5 [4] of the recording has an object out of range; locks go up to 003F, variables up "
        "to 03FF, and a begin or an end has 0000.",
        "line 5 [4] of the recording takes a lock that another thread holds; it has to be released "
        "before this line.",
        "line 5 [4] of the recording lets go a lock that its thread does not hold; acquire it "
        "first or drop the line.",
        "line 5 [4] of the recording is a begin inside 15 open blocks of its thread; nest at most "
        "15.",
        "line 5 [4] of the recording is an end where its thread has no open block; add its begin "
        "or drop the line.",
        "line 5 [4] of the guard list names a variable above 03FF or a lock above 003F; mend the "
        "number.",
        "line 5 [4] of the guard list names a variable that an earlier line names; keep one of the "
        "two.",
        "the recording is not reducible, so there is no serial order; line 5 [4] goes wrong, and "
        "explain says why.",
        "the block that begins at line 5 [4] of the recording is open at the end; add its end.",
        "the output has fewer than 4 words; lend one for each frame.",
        "the table of candidate sets has fewer than 4 entries; lend 4.",
        "the line buffer has fewer than 4 bytes; lend 4.",
        "this is no verdict line: that has 32 digits 0-9 A-F, the first two 00 to 04 or 81 to FF, "
        "and one LF; hand it on as it was written.",
        "the text has fewer than 4 bytes from the given place on; lend them.",
        "line 5 [4] of the recording takes a lock that its thread holds 15 times already; hold it "
        "at most 15 times.",
        "the list of displacements has fewer than 4 numbers; lend one for each frame.",
        "which this check does not give; its place is 4.",
    };
    static const char *sources[] = {"the recording", "the guard list", "the left recording",
                                    "the right recording", "the text", "the text"};
    const char *faulty = "00050002\n0005 002\n";
    char expected[512];
    for (uint32_t number = 1; number < COUNT(said); number++) {
        int of_list = number == TRACE_REFUSAL_GUARD_OUT_OF_RANGE ||
                      number == TRACE_REFUSAL_VARIABLE_ALREADY_NAMED;
        struct saying saying = {REFUSAL, .reply = TRACE_REPLY(number, 4u), .source = of_list};
        snprintf(expected, sizeof expected, "refused: number %u, %s\n", (unsigned)number,
                 said[number]);
        CHECK(says(saying, expected));
        saying.reply = TRACE_REPLY(TRACE_RIGHT + number, 4u);
        CHECK(says(saying, expected));
    }
    for (uint32_t source = 0; source < COUNT(sources); source++) {
        snprintf(expected, sizeof expected,
                 "refused: number 5, line 4294967296 [4294967295] of %s has a thread above 1F; "
                 "mend its digits 3 and 4.\n",
                 sources[source]);
        CHECK(says((struct saying){REFUSAL, .reply = TRACE_REPLY(5, 0xFFFFFFFFu),
                                   .source = source == 5 ? UINT32_MAX : source},
                   expected));
    }
    /* No refusal. */
    CHECK(says((struct saying){REFUSAL, .reply = 0}, ""));
    CHECK(says((struct saying){REFUSAL, .reply = 0xFFFFFFFFu, .text = faulty}, ""));
    /* The first wrong byte, where the line begins in the text. */
    CHECK(says((struct saying){REFUSAL, .reply = TRACE_REPLY(1, 1), .text = faulty,
                               .source = TRACE_SOURCE_GUARD_LIST},
               "refused: number 1, line 2 [1] of the guard list is not eight digits 0-9 A-F and "
               "one LF: column 5 has byte 20, a blank or a tab; write none.\n"));
    CHECK(says((struct saying){REFUSAL, .reply = TRACE_REPLY(1, 0), .text = "0500000"},
               "refused: number 1, line 1 [0] of the recording is not eight digits 0-9 A-F and "
               "one LF: column 8 is behind the end of the file, so there are too few digits and no "
               "LF; write eight and an LF.\n"));
    CHECK(says((struct saying){REFUSAL, .reply = TRACE_REPLY(1, 2), .text = faulty},
               "refused: number 1, line 3 [2] of the recording is not eight digits 0-9 A-F and "
               "one LF; write it so, without blanks, lower case or CR, and end the last line.\n"));
    /* What the frame does, where it is one of the words. */
    CHECK(says((struct saying){REFUSAL, .reply = TRACE_REPLY(TRACE_RIGHT + 7, 1), .words = words_j,
                               .words_len = 2, .source = TRACE_SOURCE_RIGHT},
               "refused: number 7, line 2 [1] of the right recording, acquire of lock 3 by thread "
               "1, takes a lock that another thread holds; it has to be released before this "
               "line.\n"));
    CHECK(says((struct saying){REFUSAL, .reply = TRACE_REPLY(7, 1), .words = words_j,
                               .words_len = 1, .source = TRACE_SOURCE_LEFT},
               "refused: number 7, line 2 [1] of the left recording takes a lock that another "
               "thread holds; it has to be released before this line.\n"));
}

/* Each name is that of the enumerator, in lower case and with blanks; no other number has one. */
static void test_say_names(void)
{
#define KIND(name) [TRACE_KIND_##name] = #name
#define REFUSED(name) [TRACE_REFUSAL_##name] = #name
    static const char *kinds[] = {
        KIND(REDUCIBLE),
        KIND(GUARD_NOT_HELD),
        KIND(UNPROTECTED_ACCESS_AFTER_COMMIT),
        KIND(ACQUIRE_AFTER_COMMIT),
        KIND(CANDIDATE_SET_EMPTIED),
    };
    static const char *refusals[] = {
        REFUSED(MALFORMED_LINE),
        REFUSED(TOO_MANY_FRAMES),
        REFUSED(WORDS_TOO_SHORT),
        REFUSED(OPERATION_OUT_OF_RANGE),
        REFUSED(THREAD_OUT_OF_RANGE),
        REFUSED(OBJECT_OUT_OF_RANGE),
        REFUSED(LOCK_HELD_BY_OTHER),
        REFUSED(LOCK_NOT_HELD),
        REFUSED(NESTING_TOO_DEEP),
        REFUSED(NO_OPEN_BLOCK),
        REFUSED(GUARD_OUT_OF_RANGE),
        REFUSED(VARIABLE_ALREADY_NAMED),
        REFUSED(NOT_REDUCIBLE),
        REFUSED(BLOCK_STILL_OPEN),
        REFUSED(OUTPUT_TOO_SHORT),
        REFUSED(SETS_TOO_SHORT),
        REFUSED(LINE_TOO_SHORT),
        REFUSED(NOT_A_VERDICT_LINE),
        REFUSED(TEXT_TOO_SHORT),
        REFUSED(TOO_MANY_HOLDS),
        REFUSED(MOVES_TOO_SHORT),
    };
    for (unsigned number = 0; number <= 0xFF; number++) {
        const char *of_refusal = number < COUNT(refusals) ? refusals[number] : NULL;
        const char *of_kind = number < COUNT(kinds) ? kinds[number] : NULL;
        char lower[2][64] = {"", ""};
        if (TRACE_KIND_IS_REFUSAL(number) && TRACE_KIND_REFUSAL(number) < COUNT(refusals))
            of_kind = refusals[TRACE_KIND_REFUSAL(number)];
        for (size_t n = 0; of_kind != NULL && n < strlen(of_kind); n++)
            lower[0][n] = of_kind[n] == '_' ? ' ' : (char)(of_kind[n] - 'A' + 'a');
        for (size_t n = 0; of_refusal != NULL && n < strlen(of_refusal); n++)
            lower[1][n] = of_refusal[n] == '_' ? ' ' : (char)(of_refusal[n] - 'A' + 'a');
        CHECK(says((struct saying){KIND_NAME, .number = (uint8_t)number}, lower[0]));
        CHECK(says((struct saying){REFUSAL_NAME, .number = (uint8_t)number}, lower[1]));
    }
}

/* 15 takings of a lock, the 16th, 15 releases and one more. */
static void test_most_holds(void)
{
    enum { MOST = TRACE_MAX_HOLDS, LINE = TRACE_TEXT_LINE_LENGTH };
    const uint32_t bad[] = {0x09000003, 0x01200003, 0x01000043};
    const char *bad_digits[] = {"84000F00FFFFFFFF0000000000000000",
                                "85000F00FFFFFFFF0000000000000000",
                                "86000F00FFFFFFFF0000000000000000"};
    uint32_t words[2 * MOST + 1];
    char text[LINE * (MOST + 1) + 1];
    for (size_t place = 0; place <= MOST; place++) {
        words[place] = 0x01000003;
        sprintf(text + LINE * place, "%08X\n", (unsigned)words[place]);
    }
    CHECK(checks_to(text, TRACE_LINE_LENGTH, "94000F00FFFFFFFF0000000000000000"));
    CHECK(checks_to(text + LINE, TRACE_LINE_LENGTH, "00000F00FFFFFFFF0000000000000000"));
    CHECK(declares_to("", words, MOST, TRACE_LINE_LENGTH, "00000F00FFFFFFFF0000000000000000"));
    CHECK(declares_to("", words, MOST + 1, TRACE_LINE_LENGTH, "94000F00FFFFFFFF0000000000000000"));
    CHECK(declares_to("04000000\n", words, MOST + 1, TRACE_LINE_LENGTH,
                      "8B000000FFFFFFFF0000000000000000"));
    CHECK(infers_to(words, MOST, TRACE_VARIABLES, TRACE_LINE_LENGTH,
                    "00000F00FFFFFFFF0000000000000000", 0, UINT64_MAX));
    CHECK(infers_to(words, MOST + 1, TRACE_VARIABLES, TRACE_LINE_LENGTH,
                    "94000F00FFFFFFFF0000000000000000", 0, 0));
    CHECK(infers_to(words, MOST + 1, TRACE_VARIABLES - 1, TRACE_LINE_LENGTH,
                    "94000F00FFFFFFFF0000000000000000", 0, 0));
    CHECK(equals_to(words, MOST, words, MOST, 1));
    CHECK(equals_to(words, MOST + 1, words, MOST, TRACE_REPLY(TRACE_REFUSAL_TOO_MANY_HOLDS, MOST)));
    CHECK(equals_to(words, MOST, words, MOST + 1,
                    TRACE_REPLY(TRACE_RIGHT + TRACE_REFUSAL_TOO_MANY_HOLDS, MOST)));
    CHECK(orders_to(NULL, words, MOST, MOST, MOST, words));
    CHECK(orders_to(NULL, words, MOST + 1, 0, TRACE_REPLY(TRACE_REFUSAL_TOO_MANY_HOLDS, MOST),
                    NULL));
    CHECK(orders_to("", words, MOST + 1, MOST + 1, TRACE_REPLY(TRACE_REFUSAL_TOO_MANY_HOLDS, MOST),
                    NULL));
    CHECK(moves_to("", words, MOST + 1, MOST + 1, TRACE_REPLY(TRACE_REFUSAL_TOO_MANY_HOLDS, MOST),
                   NULL));
    CHECK(commits_to("", words, MOST + 1, MOST + 1,
                     TRACE_REPLY(TRACE_REFUSAL_TOO_MANY_HOLDS, MOST), NULL));
    CHECK(writes_to(words, MOST, LINE * MOST, 0, LINE * MOST, text));
    CHECK(writes_to(words, MOST + 1, LINE * (MOST + 1), 0,
                    TRACE_REPLY(TRACE_REFUSAL_TOO_MANY_HOLDS, MOST), NULL));
    CHECK(writes_to(words, MOST + 1, 0, SIZE_MAX, TRACE_REPLY(TRACE_REFUSAL_TOO_MANY_HOLDS, MOST),
                    NULL));
    words[MOST] = 0x01010003;
    CHECK(declares_to("", words, MOST + 1, TRACE_LINE_LENGTH, "87000F00FFFFFFFF0000000000000000"));
    for (size_t number = 0; number < COUNT(bad); number++) {
        words[MOST] = bad[number];
        CHECK(declares_to("", words, MOST + 1, TRACE_LINE_LENGTH, bad_digits[number]));
    }
    for (size_t place = MOST; place <= 2 * MOST; place++)
        words[place] = 0x02000003;
    CHECK(declares_to("", words, 2 * MOST, TRACE_LINE_LENGTH, "00001E00FFFFFFFF0000000000000000"));
    CHECK(declares_to("", words, 2 * MOST + 1, TRACE_LINE_LENGTH,
                      "88001E00FFFFFFFF0000000000000000"));
    CHECK(orders_to(NULL, words, 2 * MOST, 2 * MOST, 2 * MOST, words));
    words[2 * MOST] = 0x01010003;
    CHECK(declares_to("", words, 2 * MOST + 1, TRACE_LINE_LENGTH,
                      "00001F00FFFFFFFF0000000000000000"));
}

/* 4,096 frames, one more, and a byte more. */
static void test_longest(void)
{
    enum { MOST = TRACE_MAX_FRAMES, LINE = TRACE_TEXT_LINE_LENGTH };
    uint32_t *words = allocate((MOST + 1) * sizeof *words);
    uint32_t *commits = allocate(MOST * sizeof *commits);
    char *text = allocate(LINE * (MOST + 1) + 1);
    for (size_t place = 0; place <= MOST; place++) {
        words[place] = place % 2 == 0 ? 0x05000000 : 0x06000000;
        sprintf(text + LINE * place, "%08X\n", (unsigned)words[place]);
    }
    CHECK(checks_to(text, TRACE_LINE_LENGTH, "82100000FFFFFFFF0000000000000000"));
    CHECK(reads_to(text, MOST, TRACE_REPLY(TRACE_REFUSAL_TOO_MANY_FRAMES, MOST), NULL));
    text[LINE * MOST + 1] = '\0';
    CHECK(checks_to(text, TRACE_LINE_LENGTH, "82100000FFFFFFFF0000000000000000"));
    CHECK(reads_to(text, MOST, TRACE_REPLY(TRACE_REFUSAL_TOO_MANY_FRAMES, MOST), NULL));
    text[LINE * MOST] = '\0';
    CHECK(checks_to(text, TRACE_LINE_LENGTH, "00100000FFFFFFFF0000000000000000"));
    CHECK(reads_to(text, MOST, MOST, words));
    CHECK(reads_to(text, MOST - 1, TRACE_REPLY(TRACE_REFUSAL_WORDS_TOO_SHORT, MOST), NULL));
    text[LINE * MOST - 1] = '\0';
    CHECK(checks_to(text, TRACE_LINE_LENGTH, "810FFF00FFFFFFFF0000000000000000"));
    CHECK(declares_to("", words, MOST, TRACE_LINE_LENGTH, "00100000FFFFFFFF0000000000000000"));
    CHECK(declares_to("", words, MOST + 1, TRACE_LINE_LENGTH, "82100000FFFFFFFF0000000000000000"));
    CHECK(infers_to(words, MOST, TRACE_VARIABLES, TRACE_LINE_LENGTH,
                    "00100000FFFFFFFF0000000000000000", 0, UINT64_MAX));
    CHECK(infers_to(words, MOST + 1, TRACE_VARIABLES, TRACE_LINE_LENGTH,
                    "82100000FFFFFFFF0000000000000000", 0, 0));
    CHECK(equals_to(words, MOST, words, MOST, 1));
    CHECK(equals_to(words, MOST, words, MOST - 2, 0));
    CHECK(equals_to(words, MOST + 1, words, MOST,
                    TRACE_REPLY(TRACE_REFUSAL_TOO_MANY_FRAMES, MOST)));
    CHECK(equals_to(words, MOST, words, MOST + 1,
                    TRACE_REPLY(TRACE_RIGHT + TRACE_REFUSAL_TOO_MANY_FRAMES, MOST)));
    CHECK(orders_to(NULL, words, MOST, MOST, MOST, words));
    CHECK(orders_to("", words, MOST, MOST + 1, MOST, words));
    CHECK(orders_to(NULL, words, MOST, MOST - 1, TRACE_REPLY(TRACE_REFUSAL_OUTPUT_TOO_SHORT, MOST),
                    NULL));
    CHECK(orders_to("", words, MOST + 1, MOST + 1, TRACE_REPLY(TRACE_REFUSAL_TOO_MANY_FRAMES, MOST),
                    NULL));
    CHECK(moves_to(NULL, words, MOST, MOST - 1, TRACE_REPLY(TRACE_REFUSAL_MOVES_TOO_SHORT, MOST),
                   NULL));
    CHECK(moves_to(NULL, words, MOST + 1, MOST + 1,
                   TRACE_REPLY(TRACE_REFUSAL_TOO_MANY_FRAMES, MOST), NULL));
    for (uint32_t place = 0; place < MOST; place++)
        commits[place] = place % 2 == 0 ? place + 2 : 0;
    CHECK(commits_to(NULL, words, MOST, MOST, MOST, commits));
    CHECK(commits_to("", words, MOST, MOST - 1, MOST, commits));
    CHECK(commits_to(NULL, words, MOST + 1, MOST + 1,
                     TRACE_REPLY(TRACE_REFUSAL_TOO_MANY_FRAMES, MOST), NULL));
    CHECK(commits_to("", words, MOST + 1, 0, TRACE_REPLY(TRACE_REFUSAL_TOO_MANY_FRAMES, MOST),
                     NULL));
    text[LINE * MOST - 1] = '\n';
    CHECK(writes_to(words, MOST, LINE * MOST, 0, LINE * MOST, text));
    CHECK(writes_to(words, MOST, LINE * MOST + 5, 3, LINE * MOST, text));
    CHECK(writes_to(words, MOST, LINE * MOST - 1, 0,
                    TRACE_REPLY(TRACE_REFUSAL_TEXT_TOO_SHORT, 36864), NULL));
    CHECK(writes_to(words, MOST, LINE * MOST, 1, TRACE_REPLY(TRACE_REFUSAL_TEXT_TOO_SHORT, 36864),
                    NULL));
    CHECK(writes_to(words, MOST + 1, LINE * (MOST + 1), 0,
                    TRACE_REPLY(TRACE_REFUSAL_TOO_MANY_FRAMES, MOST), NULL));
    free(text);
    free(commits);
    free(words);
}

int main(void)
{
    /* trace_check */
    CHECK(checks_to(text_a, TRACE_LINE_LENGTH, line_a));
    CHECK(checks_to(text_a, TRACE_LINE_LENGTH + 7, line_a));
    CHECK(checks_to(text_a, TRACE_LINE_LENGTH - 1, NULL));
    CHECK(checks_to(text_a, 0, NULL));
    CHECK(checks_to("x", TRACE_LINE_LENGTH - 1, NULL));
    CHECK(checks_to("", TRACE_LINE_LENGTH, reducible_0));
    CHECK(checks_to("", TRACE_LINE_LENGTH + 7, reducible_0));
    CHECK(checks_to("", 0, NULL));
    CHECK(checks_to("03000005\n", TRACE_LINE_LENGTH, "04000000FFFFFFFFFFFFFFFFFFFFFFFF"));
    CHECK(checks_to("01000003\n01010003\n", TRACE_LINE_LENGTH + 7,
                    "87000100FFFFFFFF0000000000000000"));
    CHECK(checks_to("01000003\n02010003\n", TRACE_LINE_LENGTH, "88000100FFFFFFFF0000000000000000"));
    CHECK(checks_to("01000003\n01000003\n", TRACE_LINE_LENGTH, "00000200FFFFFFFF0000000000000000"));
    CHECK(checks_to("01000040\n", TRACE_LINE_LENGTH, "86000000FFFFFFFF0000000000000000"));
    CHECK(checks_to("01000003", TRACE_LINE_LENGTH, "81000000FFFFFFFF0000000000000000"));
    CHECK(checks_to("0", TRACE_LINE_LENGTH, "81000000FFFFFFFF0000000000000000"));
    CHECK(checks_to("FFFFFFFF\n0500000", TRACE_LINE_LENGTH, "81000100FFFFFFFF0000000000000000"));

    /* trace_read */
    CHECK(reads_to(text_a, COUNT(words_a), COUNT(words_a), words_a));
    CHECK(reads_to(text_a, COUNT(words_a) + 3, COUNT(words_a), words_a));
    CHECK(reads_to(text_a, COUNT(words_a) - 1, TRACE_REPLY(TRACE_REFUSAL_WORDS_TOO_SHORT, 8),
                   NULL));
    CHECK(reads_to(text_a, 0, TRACE_REPLY(TRACE_REFUSAL_WORDS_TOO_SHORT, 8), NULL));
    CHECK(reads_to("", 0, 0, NULL));
    CHECK(reads_to("", 2, 0, NULL));
    CHECK(reads_to("05000000\n05000000\r\n", 2, TRACE_REPLY(TRACE_REFUSAL_MALFORMED_LINE, 1),
                   NULL));
    CHECK(reads_to("05000000\n05000000", 2, TRACE_REPLY(TRACE_REFUSAL_MALFORMED_LINE, 1), NULL));

    /* trace_guards */
    CHECK(guards_to("", 0));
    CHECK(guards_to("00050002\n03FF003F\n", 2));
    CHECK(guards_to("00050002\n\n", TRACE_REPLY(TRACE_REFUSAL_MALFORMED_LINE, 1)));
    CHECK(guards_to("00050002\n00050002", TRACE_REPLY(TRACE_REFUSAL_MALFORMED_LINE, 1)));
    CHECK(guards_to("04000000\nx", TRACE_REPLY(TRACE_REFUSAL_GUARD_OUT_OF_RANGE, 0)));
    CHECK(guards_to("00000040\n", TRACE_REPLY(TRACE_REFUSAL_GUARD_OUT_OF_RANGE, 0)));
    CHECK(guards_to("00050002\n00050003\n", TRACE_REPLY(TRACE_REFUSAL_VARIABLE_ALREADY_NAMED, 1)));

    /* trace_declared */
    CHECK(declares_to("00000000\n00010000\n", words_a, COUNT(words_a), TRACE_LINE_LENGTH, line_a));
    CHECK(declares_to("", words_e, COUNT(words_e), TRACE_LINE_LENGTH + 7,
                      "02000200000000010000000000000000"));
    CHECK(declares_to("00050002\n", access_5, 1, TRACE_LINE_LENGTH,
                      "01000000FFFFFFFF0000000000000004"));
    CHECK(declares_to("", access_5, 1, TRACE_LINE_LENGTH, "00000100FFFFFFFF0000000000000000"));
    CHECK(declares_to("", access_5, 0, TRACE_LINE_LENGTH, reducible_0));
    CHECK(declares_to("", words_j, COUNT(words_j), TRACE_LINE_LENGTH,
                      "87000100FFFFFFFF0000000000000000"));
    CHECK(declares_to("0005000", words_j, COUNT(words_j), TRACE_LINE_LENGTH,
                      "81000000FFFFFFFF0000000000000000"));
    CHECK(declares_to("04000000\n", words_j, 2, TRACE_LINE_LENGTH,
                      "8B000000FFFFFFFF0000000000000000"));
    CHECK(declares_to("00050002\n00050002\n", words_j, 2, TRACE_LINE_LENGTH,
                      "8C000100FFFFFFFF0000000000000000"));
    CHECK(declares_to("x", words_j, COUNT(words_j), TRACE_LINE_LENGTH - 1, NULL));
    CHECK(declares_to("", words_a, COUNT(words_a), 0, NULL));

    /* trace_inferred */
    CHECK(infers_to(words_a, COUNT(words_a), TRACE_VARIABLES, TRACE_LINE_LENGTH, line_a, 0, 1));
    CHECK(infers_to(words_a, COUNT(words_a), TRACE_VARIABLES + 6, TRACE_LINE_LENGTH + 7, line_a, 0,
                    1));
    CHECK(infers_to(words_a, 0, TRACE_VARIABLES, TRACE_LINE_LENGTH, reducible_0, 0, UINT64_MAX));
    CHECK(infers_to(words_shared, 6, TRACE_VARIABLES, TRACE_LINE_LENGTH,
                    "00000600FFFFFFFF0000000000000000", 5, 4));
    CHECK(infers_to(words_shared, 8, TRACE_VARIABLES, TRACE_LINE_LENGTH,
                    "04000700FFFFFFFF0000000000000004", 5, 4));
    CHECK(infers_to(words_j, COUNT(words_j), TRACE_VARIABLES, TRACE_LINE_LENGTH,
                    "87000100FFFFFFFF0000000000000000", 0, 0));
    CHECK(infers_to(words_j, COUNT(words_j), 0, TRACE_LINE_LENGTH,
                    "87000100FFFFFFFF0000000000000000", 0, 0));
    CHECK(infers_to(words_a, COUNT(words_a), TRACE_VARIABLES - 1, TRACE_LINE_LENGTH,
                    "90040000FFFFFFFF0000000000000000", 0, 0));
    CHECK(infers_to(words_a, 0, 0, TRACE_LINE_LENGTH, "90040000FFFFFFFF0000000000000000", 0, 0));
    CHECK(infers_to(words_a, COUNT(words_a), TRACE_VARIABLES, TRACE_LINE_LENGTH - 1, NULL, 0, 0));
    CHECK(infers_to(words_j, COUNT(words_j), TRACE_VARIABLES - 1, 0, NULL, 0, 0));

    /* trace_equal */
    CHECK(equals_to(words_h, 2, reverse_h, 2, 1));
    CHECK(equals_to(words_i, 2, reverse_i, 2, 1));
    CHECK(equals_to(words_i, 2, words_i, 2, 1));
    for (size_t row = 0; row < COUNT(words_o); row++) {
        const uint32_t *left = words_o[row][0], *right = words_o[row][1];
        size_t length = length_o[row];
        CHECK(equals_to(left, length, right, length, reply_o[row]));
        CHECK(equals_to(right, length, left, length, reply_o[row]));
    }
    CHECK(equals_to(words_c, COUNT(words_c), serial_c, COUNT(serial_c), 1));
    CHECK(equals_to(words_c, COUNT(words_c), serial_c, COUNT(serial_c) - 1, 0));
    CHECK(equals_to(words_c, 0, serial_c, 0, 1));
    CHECK(equals_to(words_j, COUNT(words_j), words_c, 0,
                    TRACE_REPLY(TRACE_REFUSAL_LOCK_HELD_BY_OTHER, 1)));
    CHECK(equals_to(words_c, 0, words_j, COUNT(words_j),
                    TRACE_REPLY(TRACE_RIGHT + TRACE_REFUSAL_LOCK_HELD_BY_OTHER, 1)));
    CHECK(equals_to(words_j, COUNT(words_j), words_j, COUNT(words_j),
                    TRACE_REPLY(TRACE_REFUSAL_LOCK_HELD_BY_OTHER, 1)));

    /* trace_serial_inferred and trace_serial_declared */
    CHECK(orders_to(NULL, words_c, COUNT(words_c), COUNT(words_c), COUNT(words_c), serial_c));
    CHECK(orders_to(NULL, words_c, COUNT(words_c), COUNT(words_c) + 3, COUNT(words_c), serial_c));
    CHECK(orders_to(NULL, words_c, COUNT(words_c), COUNT(words_c) - 1,
                    TRACE_REPLY(TRACE_REFUSAL_OUTPUT_TOO_SHORT, 10), NULL));
    CHECK(orders_to(NULL, words_c, COUNT(words_c), 0,
                    TRACE_REPLY(TRACE_REFUSAL_OUTPUT_TOO_SHORT, 10), NULL));
    CHECK(orders_to("00000000\n", words_c, COUNT(words_c), 10, 10, serial_c));
    CHECK(orders_to("00000000\n", words_c, COUNT(words_c), 9,
                    TRACE_REPLY(TRACE_REFUSAL_OUTPUT_TOO_SHORT, 10), NULL));
    CHECK(orders_to("00000000", words_c, COUNT(words_c), 10,
                    TRACE_REPLY(TRACE_REFUSAL_MALFORMED_LINE, 0), NULL));
    CHECK(orders_to("04000000\n", words_j, COUNT(words_j), 10,
                    TRACE_REPLY(TRACE_REFUSAL_GUARD_OUT_OF_RANGE, 0), NULL));
    CHECK(orders_to("00050002\n00050002\n", words_j, 2, 2,
                    TRACE_REPLY(TRACE_REFUSAL_VARIABLE_ALREADY_NAMED, 1), NULL));
    CHECK(orders_to("", words_j, COUNT(words_j), 1,
                    TRACE_REPLY(TRACE_REFUSAL_LOCK_HELD_BY_OTHER, 1), NULL));
    CHECK(orders_to("", words_e, COUNT(words_e), 3, TRACE_REPLY(TRACE_REFUSAL_NOT_REDUCIBLE, 2),
                    NULL));
    CHECK(orders_to(NULL, words_a, COUNT(words_a), 8, TRACE_REPLY(TRACE_REFUSAL_NOT_REDUCIBLE, 4),
                    NULL));
    CHECK(orders_to(NULL, begin_alone, 1, 0, TRACE_REPLY(TRACE_REFUSAL_BLOCK_STILL_OPEN, 0), NULL));
    CHECK(orders_to("", begin_alone, 1, 1, TRACE_REPLY(TRACE_REFUSAL_BLOCK_STILL_OPEN, 0), NULL));
    CHECK(orders_to(NULL, words_c, 0, 0, 0, NULL));
    CHECK(orders_to("", words_c, 0, 2, 0, NULL));

    /* trace_moves_inferred and trace_moves_declared */
    CHECK(moves_to(NULL, words_c, COUNT(words_c), COUNT(words_c), COUNT(words_c), moves_c));
    CHECK(moves_to(NULL, words_c, COUNT(words_c), COUNT(words_c) + 3, COUNT(words_c), moves_c));
    CHECK(moves_to(NULL, words_c, COUNT(words_c), COUNT(words_c) - 1,
                   TRACE_REPLY(TRACE_REFUSAL_MOVES_TOO_SHORT, 10), NULL));
    CHECK(moves_to(NULL, words_c, COUNT(words_c), 0, TRACE_REPLY(TRACE_REFUSAL_MOVES_TOO_SHORT, 10),
                   NULL));
    CHECK(moves_to("00000000\n", words_c, COUNT(words_c), 10, 10, moves_c));
    CHECK(moves_to("00000000\n", words_c, COUNT(words_c), 9,
                   TRACE_REPLY(TRACE_REFUSAL_MOVES_TOO_SHORT, 10), NULL));
    CHECK(moves_to("00000000", words_c, COUNT(words_c), 10,
                   TRACE_REPLY(TRACE_REFUSAL_MALFORMED_LINE, 0), NULL));
    CHECK(moves_to("04000000\n", words_j, COUNT(words_j), 10,
                   TRACE_REPLY(TRACE_REFUSAL_GUARD_OUT_OF_RANGE, 0), NULL));
    CHECK(moves_to("", words_j, COUNT(words_j), 1, TRACE_REPLY(TRACE_REFUSAL_LOCK_HELD_BY_OTHER, 1),
                   NULL));
    CHECK(moves_to("", words_e, COUNT(words_e), 3, TRACE_REPLY(TRACE_REFUSAL_NOT_REDUCIBLE, 2),
                   NULL));
    CHECK(moves_to(NULL, words_a, COUNT(words_a), 0, TRACE_REPLY(TRACE_REFUSAL_NOT_REDUCIBLE, 4),
                   NULL));
    CHECK(moves_to(NULL, begin_alone, 1, 0, TRACE_REPLY(TRACE_REFUSAL_BLOCK_STILL_OPEN, 0), NULL));
    CHECK(moves_to("", begin_alone, 1, 1, TRACE_REPLY(TRACE_REFUSAL_BLOCK_STILL_OPEN, 0), NULL));
    CHECK(moves_to(NULL, words_c, 0, 0, 0, NULL));
    CHECK(moves_to("", words_c, 0, 2, 0, NULL));

    /* trace_write, trace_line_read and trace_line_write */
    test_write();
    test_lines();

    /* trace_commits_declared and trace_commits_inferred, and what is said */
    test_commits();
    test_say_verdicts();
    test_say_refusals();
    test_say_names();

    test_again();
    test_most_holds();
    test_longest();
    if (failures > 0)
        return 1;
    printf("c: %d checks\n", checks);
    return 0;
}
